//! The port's whole job, through the header for C (port.c).

use model::grid::Grid;
use model::topology::Topology;
use model::{Job, SignMethod};

extern "C" {
    fn port_job(
        first: *const f32,
        size: *const f32,
        count: *const u32,
        upright: u32,
        vertices: *const f32,
        coordinate_count: usize,
        topology: u32,
        given: u32,
        indices: *const u32,
        index_count: usize,
        field: *mut f32,
        field_length: usize,
        names: *mut u32,
        names_length: usize,
        crossings: *mut u32,
        crossings_length: usize,
        rows: *mut u32,
        rows_length: usize,
        distances: *mut u32,
        distances_length: usize,
        cells: *mut u32,
        cells_length: usize,
        triangles: *mut u32,
        triangles_length: usize,
        row: *mut [u32; 3],
        row_length: usize,
        limit: u32,
        pass: u32,
        sign: u32,
        edition: u32,
        number: *mut u32,
        pops: *mut u32,
        peak: *mut usize,
        grazed: *mut u64,
    );
}

#[derive(Clone, Copy, Default, PartialEq, Eq, Debug)]
pub struct Answer {
    pub number: u32,
    pub pops: u32,
    pub peak: usize,
    pub grazed: u64,
}

/// The lent buffers.
#[derive(Clone, Default)]
pub struct Lent {
    pub field: Vec<f32>,
    pub names: Vec<u32>,
    pub crossings: Vec<u32>,
    pub rows: Vec<u32>,
    pub distances: Vec<u32>,
    pub cells: Vec<u32>,
    pub triangles: Vec<u32>,
}

impl Lent {
    /// As the grid asks for, with room for so many entries.
    pub fn fitting(grid: &Grid, room: usize) -> Lent {
        let n = grid.cells() as usize;
        Lent {
            field: vec![0.0; n],
            names: vec![0; n],
            crossings: vec![0; 3 * n],
            rows: vec![0; grid.layers() as usize],
            distances: vec![0; room],
            cells: vec![0; room],
            triangles: vec![0; room],
        }
    }

    /// The lists of whole numbers, in the header's order.
    pub fn numbers(&mut self) -> [&mut Vec<u32>; 6] {
        [
            &mut self.names,
            &mut self.crossings,
            &mut self.rows,
            &mut self.distances,
            &mut self.cells,
            &mut self.triangles,
        ]
    }

    /// The field's bits, and the lists of whole numbers.
    pub fn bits(&self) -> (Vec<u32>, [&[u32]; 6]) {
        let lists: [&[u32]; 6] =
            [&self.names, &self.crossings, &self.rows, &self.distances, &self.cells, &self.triangles];
        (self.field.iter().map(|x| x.to_bits()).collect(), lists)
    }
}

/// How a job is asked for, which no answer and no buffer shows: with the queue as a row of records, or as three lists; by
/// the quick pass, or by the plain one.
#[derive(Clone, Copy, PartialEq, Eq, Debug)]
pub struct By {
    pub records: bool,
    pub quick: bool,
}

impl By {
    pub const ALL: [By; 4] = [
        By { records: false, quick: false },
        By { records: false, quick: true },
        By { records: true, quick: false },
        By { records: true, quick: true },
    ];

    /// The other form of the queue, and the other pass.
    pub fn other(self) -> By {
        By { records: !self.records, quick: !self.quick }
    }
}

/// The job over the lent buffers. The queue room is what is lent, not what the job says.
pub fn ask(job: &Job, lent: &mut Lent, limit: u32, by: By) -> Answer {
    ask_with(job, job.vertices.as_flattened(), lent, limit, by)
}

/// The same with other coordinates than the job's. A row of records holds what the three lists of `lent`'s queue do, entry
/// by entry.
pub fn ask_with(job: &Job, coordinates: &[f32], lent: &mut Lent, limit: u32, by: By) -> Answer {
    // For C any number but 0 is Normal.
    let sign = match job.sign {
        SignMethod::Raycast => 0,
        SignMethod::Normal if by.records => u32::MAX,
        SignMethod::Normal => 1,
    };
    if !by.records {
        return call(job, coordinates, lent, None, [limit, u32::from(by.quick), sign, job.edition()]);
    }
    let mut row: Vec<[u32; 3]> =
        (0..lent.distances.len()).map(|i| [lent.distances[i], lent.cells[i], lent.triangles[i]]).collect();
    let answer = call(job, coordinates, lent, Some(&mut row), [limit, u32::from(by.quick), sign, job.edition()]);
    for (i, entry) in row.iter().enumerate() {
        [lent.distances[i], lent.cells[i], lent.triangles[i]] = *entry;
    }
    answer
}

/// The job over the lent buffers, with the row for a queue where there is one, and the members of sdf_terms.
fn call(
    job: &Job,
    coordinates: &[f32],
    lent: &mut Lent,
    row: Option<&mut [[u32; 3]]>,
    [limit, pass, sign, edition]: [u32; 4],
) -> Answer {
    let (row, row_length) = row.map_or((std::ptr::null_mut(), 0), |row| (row.as_mut_ptr(), row.len()));
    let indices = job.indices.as_deref().unwrap_or(&[]);
    let mut answer = Answer::default();
    // SAFETY: every pointer is that of a slice or a number, with the slice's own length; none are shared.
    unsafe {
        port_job(
            job.grid.first.as_ptr(),
            job.grid.size.as_ptr(),
            job.grid.count.as_ptr(),
            job.grid.upright(),
            coordinates.as_ptr(),
            coordinates.len(),
            u32::from(job.topology == Topology::Strip),
            u32::from(job.indices.is_some()),
            indices.as_ptr(),
            indices.len(),
            lent.field.as_mut_ptr(),
            lent.field.len(),
            lent.names.as_mut_ptr(),
            lent.names.len(),
            lent.crossings.as_mut_ptr(),
            lent.crossings.len(),
            lent.rows.as_mut_ptr(),
            lent.rows.len(),
            lent.distances.as_mut_ptr(),
            lent.distances.len(),
            lent.cells.as_mut_ptr(),
            lent.cells.len(),
            lent.triangles.as_mut_ptr(),
            lent.triangles.len(),
            row,
            row_length,
            limit,
            pass,
            sign,
            edition,
            &mut answer.number,
            &mut answer.pops,
            &mut answer.peak,
            &mut answer.grazed,
        );
    }
    answer
}

/// The job with room enough: the room is doubled until it does.
pub fn ask_with_room(job: &Job, lent: &mut Lent, by: By) -> Answer {
    loop {
        let answer = ask(job, lent, u32::MAX, by);
        if answer.number != 7 {
            return answer;
        }
        let room = lent.distances.len() * 2 + 1;
        for list in [&mut lent.distances, &mut lent.cells, &mut lent.triangles] {
            list.resize(room, 0);
        }
    }
}

/// The job asked for in another way, from buffers that held `before`, gives this answer and leaves these buffers. Three lists
/// of different lengths are no row: nothing is asked then.
pub fn hold_again(
    job: &Job,
    coordinates: &[f32],
    mut before: Lent,
    limit: u32,
    by: By,
    answer: Answer,
    left: &Lent,
) -> Result<bool, String> {
    let room = before.distances.len();
    if by.records && (before.cells.len() != room || before.triangles.len() != room) {
        return Ok(false);
    }
    let again = ask_with(job, coordinates, &mut before, limit, by);
    if again != answer {
        return Err(format!("{answer:?}, and by {by:?} {again:?}"));
    }
    if before.bits() != left.bits() {
        return Err(format!("answer {}, and a buffer is not the same by {by:?}", answer.number));
    }
    Ok(true)
}
