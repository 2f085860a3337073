//! "Geometry, from document 001", and the steps on points of "What is carried over".

/// A point: x, y, z.
pub type Point = [f32; 3];

pub fn sub([ax, ay, az]: Point, [bx, by, bz]: Point) -> Point {
    [ax - bx, ay - by, az - bz]
}

pub fn add([ax, ay, az]: Point, [bx, by, bz]: Point) -> Point {
    [ax + bx, ay + by, az + bz]
}

/// Each coordinate times one number.
pub fn times([x, y, z]: Point, factor: f32) -> Point {
    [x * factor, y * factor, z * factor]
}

/// Dot: (x·x + y·y) + z·z.
pub fn dot([ax, ay, az]: Point, [bx, by, bz]: Point) -> f32 {
    (ax * bx + ay * by) + az * bz
}

/// Cross: y·z − z·y, and so round.
pub fn cross([ax, ay, az]: Point, [bx, by, bz]: Point) -> Point {
    [ay * bz - az * by, az * bx - ax * bz, ax * by - ay * bx]
}

/// Length: the square root of the dot with itself; the binary32 nearest the exact root.
pub fn length(a: Point) -> f32 {
    dot(a, a).sqrt()
}

/// Triangle box: least and greatest corner per axis, then −0.0001 and +0.0001 as f32.
pub fn triangle_box([a, b, c]: [Point; 3]) -> (Point, Point) {
    let least = |axis: usize| a[axis].min(b[axis]).min(c[axis]);
    let greatest = |axis: usize| a[axis].max(b[axis]).max(c[axis]);
    ([0, 1, 2].map(|axis| least(axis) - 0.0001_f32), [0, 1, 2].map(|axis| greatest(axis) + 0.0001_f32))
}

/// Closest point: equal corners first, then the regions a, b, c, ab, ac, bc, inside.
pub fn closest_point(p: Point, [a, b, c]: [Point; 3]) -> Point {
    // Equal as numbers, so −0 equals +0.
    if a == b && b == c && a == c {
        return a;
    }
    if a == b {
        return closest_on_segment(p, a, c);
    }
    if b == c || a == c {
        return closest_on_segment(p, a, b);
    }
    closest_on_proper_triangle(p, [a, b, c])
}

fn closest_on_proper_triangle(p: Point, [a, b, c]: [Point; 3]) -> Point {
    let (ab, ac) = (sub(b, a), sub(c, a));

    // Region a.
    let ap = sub(p, a);
    let (d1, d2) = (dot(ab, ap), dot(ac, ap));
    if d1 <= 0.0 && d2 <= 0.0 {
        return a;
    }
    // Region b.
    let bp = sub(p, b);
    let (d3, d4) = (dot(ab, bp), dot(ac, bp));
    if d3 >= 0.0 && d4 <= d3 {
        return b;
    }
    // Region c.
    let cp = sub(p, c);
    let (d5, d6) = (dot(ab, cp), dot(ac, cp));
    if d6 >= 0.0 && d5 <= d6 {
        return c;
    }
    // Region ab.
    let vc = d1 * d4 - d3 * d2;
    if vc <= 0.0 && d1 >= 0.0 && d3 <= 0.0 {
        return add(a, times(ab, d1 / (d1 - d3)));
    }
    // Region ac.
    let vb = d5 * d2 - d1 * d6;
    if vb <= 0.0 && d2 >= 0.0 && d6 <= 0.0 {
        return add(a, times(ac, d2 / (d2 - d6)));
    }
    // Region bc.
    let va = d3 * d6 - d5 * d4;
    if va <= 0.0 && d4 - d3 >= 0.0 && d5 - d6 >= 0.0 {
        return add(b, times(sub(c, b), (d4 - d3) / ((d4 - d3) + (d5 - d6))));
    }
    // Inside.
    let denominator = 1.0 / ((va + vb) + vc);
    add(add(a, times(ab, vb * denominator)), times(ac, vc * denominator))
}

/// In the segment, a NaN parameter stays NaN under the clamp.
pub fn closest_on_segment(p: Point, a: Point, b: Point) -> Point {
    let ab = sub(b, a);
    let parameter = dot(ab, sub(p, a)) / dot(ab, ab);
    let clamped = if parameter < 0.0 {
        0.0
    } else if parameter > 1.0 {
        1.0
    } else {
        parameter
    };
    add(a, times(ab, clamped))
}

/// Distance: length of point − closest.
pub fn distance(p: Point, triangle: [Point; 3]) -> f32 {
    length(sub(p, closest_point(p, triangle)))
}

/// Signed distance (document 02, §8): positive where point − closest has a dot above 0 with the normal, (b − a) × (c − a), which is
/// not normalised. A dot of exactly 0 gives the negative.
pub fn point_triangle_signed_distance(p: Point, [a, b, c]: [Point; 3]) -> f32 {
    let away = sub(p, closest_point(p, [a, b, c]));
    let normal = cross(sub(b, a), sub(c, a));
    if dot(away, normal) > 0.0 {
        length(away)
    } else {
        -length(away)
    }
}

/// What a ray test answers. Grazed is document 02's, §3: document 01 had it among the misses.
#[derive(Clone, Copy, PartialEq, Debug)]
pub enum Reply {
    Miss,
    Grazed,
    /// With its distance t.
    Hit(f32),
}

impl Reply {
    /// The hit's t, which is all that document 01 knew.
    pub fn hit(self) -> Option<f32> {
        match self {
            Reply::Hit(t) => Some(t),
            Reply::Miss | Reply::Grazed => None,
        }
    }
}

/// Aligned ray from `origin` along `axis`.
pub fn ray(origin: Point, [v0, v1, v2]: [Point; 3], axis: usize) -> Reply {
    // The ray's axis is called x here, and the two that follow it in the circle x, y, z are y and z.
    let x = |v: Point| v[axis];
    let y = |v: Point| v[(axis + 1) % 3];
    let z = |v: Point| v[(axis + 2) % 3];

    let (edge01, edge12, edge20) = (sub(v1, v0), sub(v2, v1), sub(v0, v2));
    let (p0, p1, p2) = (sub(origin, v0), sub(origin, v1), sub(origin, v2));

    let w0 = z(p1) * y(edge12) - y(p1) * z(edge12);
    let w1 = z(p2) * y(edge20) - y(p2) * z(edge20);
    let w2 = z(p0) * y(edge01) - y(p0) * z(edge01);

    let weights = [w0, w1, w2];
    let all_below = weights.iter().all(|&w| w < 0.0);
    let all_above = weights.iter().all(|&w| w > 0.0);
    // The products summed w0, w2, w1.
    let t = -((w0 * x(p0) + w2 * x(p2)) + w1 * x(p1)) / ((w0 + w1) + w2);
    let hit = (all_below || all_above) && t > 0.0;
    // Document 02, §3: not a hit, at least one weight is 0, and not one above 0 with another below 0, wherever t lies. As a number
    // -0 is 0.
    let some_zero = weights.iter().any(|&w| w == 0.0);
    let some_above = weights.iter().any(|&w| w > 0.0);
    let some_below = weights.iter().any(|&w| w < 0.0);
    if hit {
        Reply::Hit(t)
    } else if some_zero && !(some_above && some_below) {
        Reply::Grazed
    } else {
        Reply::Miss
    }
}
