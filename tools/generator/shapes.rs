//! Meshes in cell units: 0 is the centre of the first cell on each axis, 1 that of the next.

use crate::random::Random;

#[derive(Clone, Default)]
pub struct Mesh {
    pub vertices: Vec<[f64; 3]>,
    pub triangles: Vec<[u32; 3]>,
}

impl Mesh {
    fn vertex(&mut self, at: [f64; 3]) -> u32 {
        self.vertices.push(at);
        self.vertices.len() as u32 - 1
    }

    fn quad(&mut self, a: u32, b: u32, c: u32, d: u32) {
        self.triangles.push([a, b, c]);
        self.triangles.push([a, c, d]);
    }
}

/// A closed box.
pub fn cuboid(low: [f64; 3], high: [f64; 3]) -> Mesh {
    let mut mesh = Mesh::default();
    for corner in 0..8 {
        mesh.vertex([0, 1, 2].map(|axis| if corner >> axis & 1 == 0 { low[axis] } else { high[axis] }));
    }
    for [a, b, c, d] in [[0, 2, 3, 1], [4, 5, 7, 6], [0, 1, 5, 4], [2, 6, 7, 3], [0, 4, 6, 2], [1, 3, 7, 5]] {
        mesh.quad(a, b, c, d);
    }
    mesh
}

/// Which triangles of a cuboid are its lower face across an axis.
pub fn cuboid_face(axis: usize) -> std::ops::Range<usize> {
    [8..10, 4..6, 0..2][axis].clone()
}

/// A closed hull: a profile of (radius, height) turned about an upright axis in so many segments. Its first and its
/// last point lie on the axis, whatever their radius.
pub fn turned(centre: [f64; 3], profile: &[(f64, f64)], segments: u32) -> Mesh {
    let mut mesh = Mesh::default();
    let ends = [profile[0].1, profile[profile.len() - 1].1];
    let inner = &profile[1..profile.len() - 1];
    let low = mesh.vertex([centre[0], centre[1], centre[2] + ends[0]]);
    let high = mesh.vertex([centre[0], centre[1], centre[2] + ends[1]]);
    for (radius, height) in inner {
        for segment in 0..segments {
            let (s, c) = turn(f64::from(segment) / f64::from(segments));
            mesh.vertex([centre[0] + radius * c, centre[1] + radius * s, centre[2] + height]);
        }
    }
    for segment in 0..segments {
        let next = (segment + 1) % segments;
        mesh.triangles.push([low, 2 + next, 2 + segment]);
        for band in 0..inner.len() as u32 - 1 {
            let row = 2 + band * segments;
            mesh.quad(row + segment, row + next, row + segments + next, row + segments + segment);
        }
        let last = 2 + (inner.len() as u32 - 1) * segments;
        mesh.triangles.push([last + segment, last + next, high]);
    }
    mesh
}

/// The profile of an upright tank: rings on the floor, bands up the wall, and as many rings on the roof.
pub fn tank_profile(radius: f64, half_height: f64, rings: u32, bands: u32) -> Vec<(f64, f64)> {
    let ring = |k: u32| radius * f64::from(k) / f64::from(rings);
    let floor = (0..rings).map(|k| (ring(k), -half_height));
    let wall = (0..=bands).map(|k| (radius, half_height * (2.0 * f64::from(k) / f64::from(bands) - 1.0)));
    let roof = (0..rings).rev().map(|k| (ring(k), half_height));
    floor.chain(wall).chain(roof).collect()
}

/// A closed sphere (an ellipsoid) of bands and segments.
pub fn sphere(centre: [f64; 3], radius: [f64; 3], bands: u32, segments: u32) -> Mesh {
    let mut mesh = Mesh::default();
    let place =
        |x: f64, y: f64, z: f64| [centre[0] + x * radius[0], centre[1] + y * radius[1], centre[2] + z * radius[2]];
    let low = mesh.vertex(place(0.0, 0.0, -1.0));
    for band in 1..bands {
        let (sin, cos) = turn(0.5 * f64::from(band) / f64::from(bands));
        for segment in 0..segments {
            let (s, c) = turn(f64::from(segment) / f64::from(segments));
            mesh.vertex(place(sin * c, sin * s, -cos));
        }
    }
    let high = mesh.vertex(place(0.0, 0.0, 1.0));
    for segment in 0..segments {
        let next = (segment + 1) % segments;
        mesh.triangles.push([low, 1 + next, 1 + segment]);
        for band in 0..bands - 2 {
            let row = 1 + band * segments;
            mesh.quad(row + segment, row + next, row + segments + next, row + segments + segment);
        }
        let last = 1 + (bands - 2) * segments;
        mesh.triangles.push([last + segment, last + next, high]);
    }
    mesh
}

/// An upright tank: floor, roof, and a wall of panels with a manhole in the first of them. The blanking plate
/// closes the manhole; without it the hull is open.
pub fn tank(centre: [f64; 3], radius: f64, half_height: f64, panels: u32, plate: bool) -> Mesh {
    let mut mesh = Mesh::default();
    let [x, y, z] = centre;
    let (bottom, top) = (z - half_height, z + half_height);
    let floor = mesh.vertex([x, y, bottom]);
    let roof = mesh.vertex([x, y, top]);
    for panel in 0..panels {
        let (s, c) = turn(f64::from(panel) / f64::from(panels));
        mesh.vertex([x + radius * c, y + radius * s, bottom]);
        mesh.vertex([x + radius * c, y + radius * s, top]);
    }
    for panel in 0..panels {
        let (a, b) = (2 + 2 * panel, 2 + 2 * ((panel + 1) % panels));
        mesh.triangles.push([floor, b, a]);
        mesh.triangles.push([roof, a + 1, b + 1]);
        if panel == 0 {
            manhole(&mut mesh, [a, b, b + 1, a + 1], plate);
        } else {
            mesh.quad(a, b, b + 1, a + 1);
        }
    }
    mesh
}

/// A wall panel with a square hole in its middle half, and the plate over it.
fn manhole(mesh: &mut Mesh, outer: [u32; 4], plate: bool) {
    let corners = outer.map(|v| mesh.vertices[v as usize]);
    let middle = [0, 1, 2].map(|axis| corners.iter().map(|c| c[axis]).sum::<f64>() / 4.0);
    let inner = corners.map(|c| mesh.vertex([0, 1, 2].map(|axis| (c[axis] + middle[axis]) / 2.0)));
    for side in 0..4 {
        let next = (side + 1) % 4;
        mesh.quad(outer[side], outer[next], inner[next], inner[side]);
    }
    if plate {
        mesh.quad(inner[0], inner[1], inner[2], inner[3]);
    }
}

/// Triangles anywhere within the span on each axis.
pub fn soup(r: &mut Random, low: f64, high: [f64; 3], triangles: u32) -> Mesh {
    let mut mesh = Mesh::default();
    for _ in 0..triangles {
        let corners = [0; 3].map(|_| {
            let at = [0, 1, 2].map(|axis| low + (high[axis] - low) * (f64::from(r.unit()) + 1.0) / 2.0);
            mesh.vertex(at)
        });
        mesh.triangles.push(corners);
    }
    mesh
}

/// Sine and cosine of a part of the full turn, by series: additions and products alone, so every machine agrees.
fn turn(part: f64) -> (f64, f64) {
    let angle = (part - 0.5) * std::f64::consts::TAU;
    let (mut sin, mut cos, mut term) = (0.0, 0.0, 1.0);
    for n in 0..40u32 {
        match n % 4 {
            0 => cos += term,
            1 => sin += term,
            2 => cos -= term,
            _ => sin -= term,
        }
        term = term * angle / f64::from(n + 1);
    }
    // The angle was taken half a turn back.
    (-sin, -cos)
}
