//! The Rust, asked from outside: whole jobs, single steps, and the same for C. It is the unmodified one, but for jobs with Normal signs:
//! these are answered by the Rust with the queue's order of document 02, §8, put in (tools/oracle/queue-order.patch).
//!
//! One thread of rayon's, so triangles are seeded in their order and one heap takes every entry. The number of
//! propagation steps and the times are read from the source's own log lines.

pub mod c;
pub mod text;

use std::cell::RefCell;
use std::panic::{catch_unwind, AssertUnwindSafe};
use std::sync::{Mutex, Once};

/// The sign method of a job (document 02, §8).
#[derive(Clone, Copy, PartialEq, Eq, Debug)]
pub enum Sign {
    Raycast,
    Normal,
}

/// Whose order the queue has: the source's own, by `compare_distances`, or document 02's.
#[derive(Clone, Copy, PartialEq, Eq, Debug)]
pub enum Order {
    Source,
    Document,
}

impl Sign {
    /// The order in which jobs with this method are answered. By Raycast no distance is negative and the two orders are one: there
    /// the source stays as it is.
    pub fn order(self) -> Order {
        match self {
            Sign::Raycast => Order::Source,
            Sign::Normal => Order::Document,
        }
    }
}

/// One job, without document 01's bounds: the Rust has none. Nor has it an upright axis (document 02, §9: 0 x, 1 y, 2 z) or editions of a table
/// (§11): only `rows` looks at them.
pub struct Job {
    pub count: [u32; 3],
    pub first: [f32; 3],
    pub size: [f32; 3],
    pub upright: u32,
    pub strip: bool,
    pub sign: Sign,
    pub vertices: Vec<[f32; 3]>,
    pub indices: Option<Vec<u32>>,
    pub edition: u32,
}

impl Job {
    pub fn lent(&self) -> Lent<'_> {
        let Job { count, first, size, upright, strip, sign, ref vertices, ref indices, edition } = *self;
        Lent { count, first, size, upright, strip, sign, vertices, indices: indices.as_deref(), edition }
    }
}

/// The same with its lists lent.
#[derive(Clone, Copy)]
pub struct Lent<'a> {
    pub count: [u32; 3],
    pub first: [f32; 3],
    pub size: [f32; 3],
    pub upright: u32,
    pub strip: bool,
    pub sign: Sign,
    pub vertices: &'a [[f32; 3]],
    pub indices: Option<&'a [u32]>,
    pub edition: u32,
}

/// What the Rust gives for a job. Times are in milliseconds: seeding, spreading, crossings.
pub struct Answer {
    pub field: Vec<f32>,
    pub steps: u32,
    pub times: [f64; 3],
}

/// A job's topology, grid and method in the types of one of the two crates.
macro_rules! in_types_of {
    ($rust:ident, $job:expr) => {{
        let job = $job;
        let topology = match job.strip {
            true => $rust::Topology::TriangleStrip(job.indices),
            false => $rust::Topology::TriangleList(job.indices),
        };
        let grid = $rust::Grid::new(job.first, job.size, job.count.map(|n| n as usize));
        let sign = match job.sign {
            Sign::Raycast => $rust::SignMethod::Raycast,
            Sign::Normal => $rust::SignMethod::Normal,
        };
        (topology, grid, sign)
    }};
}

/// The field and the steps, or the words of the panic.
pub fn run(job: Lent) -> Result<Answer, String> {
    run_in(job.sign.order(), job)
}

/// The same with the queue in this order.
pub fn run_in(order: Order, job: Lent) -> Result<Answer, String> {
    begin();
    LINES.with(|lines| lines.borrow_mut().clear());
    let field = guarded(|| match order {
        Order::Source => {
            let (topology, grid, sign) = in_types_of!(mesh_to_sdf, job);
            mesh_to_sdf::generate_grid_sdf(job.vertices, topology, &grid, sign)
        }
        Order::Document => {
            let (topology, grid, sign) = in_types_of!(mesh_to_sdf_ordered, job);
            mesh_to_sdf_ordered::generate_grid_sdf(job.vertices, topology, &grid, sign)
        }
    })?;
    let (_, seeding) = logged("init steps: ")?;
    let (steps, spreading) = logged("propagation steps: ")?;
    let crossings = match job.sign {
        Sign::Raycast => logged("raycasts done: ")?.1,
        // No ray is cast.
        Sign::Normal => 0.0,
    };
    Ok(Answer { field, steps, times: [seeding, spreading, crossings] })
}

/// The rows of a field, which the Rust has not: for each number on the upright axis, what the cells that have it count together (document 02, §9).
/// What number a cell has is the Rust's own answer. By the bits of its distance, in edition 1 of the table a cell counts its sign bit (§2); in edition
/// 2 the two zeros count 1, and every other the sign bit twice (§11). Or a number of the documents: 1 where the axis is no axis, and 14 where
/// there is no such edition.
pub fn rows(job: Lent, field: &[f32]) -> Result<Vec<u32>, u32> {
    let (_, grid, _) = in_types_of!(mesh_to_sdf, job);
    let upright = job.upright as usize;
    let mut rows = vec![0; *grid.get_cell_count().get(upright).ok_or(1u32)?];
    let counts: fn(u32) -> u32 = match job.edition {
        1 => |bits| bits >> 31,
        2 => |bits| match bits {
            0x0000_0000 | 0x8000_0000 => 1,
            _ => bits >> 31 << 1,
        },
        _ => return Err(14),
    };
    for (cell, distance) in field.iter().enumerate() {
        rows[grid.get_cell_integer_coordinates(cell)[upright]] += counts(distance.to_bits());
    }
    Ok(rows)
}

/// What seeding leaves: for each cell the vertex numbers of its triangle, and the distance. The queue has no part in it.
pub fn seeding(job: Lent) -> Result<Vec<((usize, usize, usize), f32)>, String> {
    guarded(|| {
        let (topology, grid, sign) = in_types_of!(mesh_to_sdf, job);
        mesh_to_sdf::probe::seeding(job.vertices, topology, &grid, sign)
    })
}

/// The crossing counts along x, y and z of each cell. With Normal signs the Rust makes none, and the list is empty.
pub fn crossings(job: Lent) -> Result<Vec<[u32; 3]>, String> {
    guarded(|| match in_types_of!(mesh_to_sdf, job) {
        (_, _, mesh_to_sdf::SignMethod::Normal) => Vec::new(),
        (topology, grid, _) => mesh_to_sdf::probe::crossings(job.vertices, topology, &grid),
    })
}

/// The triangles in order, by their vertex numbers.
pub fn get_triangles(job: Lent) -> Result<Vec<(usize, usize, usize)>, String> {
    guarded(|| mesh_to_sdf::probe::get_triangles(job.vertices, in_types_of!(mesh_to_sdf, job).0))
}

// One thread, a listener for the log lines, and no noise from panics that are caught.

static BEGIN: Once = Once::new();
static PANIC: Mutex<String> = Mutex::new(String::new());

thread_local! {
    /// The source logs from the thread that calls it.
    static LINES: RefCell<Vec<String>> = const { RefCell::new(Vec::new()) };
}

struct Listener;

impl log::Log for Listener {
    fn enabled(&self, _: &log::Metadata) -> bool {
        true
    }
    fn log(&self, record: &log::Record) {
        LINES.with(|lines| lines.borrow_mut().push(record.args().to_string()));
    }
    fn flush(&self) {}
}

pub fn begin() {
    BEGIN.call_once(|| {
        rayon::ThreadPoolBuilder::new().num_threads(1).build_global().expect("one thread");
        log::set_logger(&Listener).expect("the only listener");
        log::set_max_level(log::LevelFilter::Info);
        std::panic::set_hook(Box::new(|info| {
            let payload = info.payload();
            let words = match (payload.downcast_ref::<&str>(), payload.downcast_ref::<String>()) {
                (Some(s), _) => s.to_string(),
                (_, Some(s)) => s.clone(),
                _ => "a panic without words".to_string(),
            };
            // The first panic is the cause; what follows are threads that waited for it.
            let mut first = PANIC.lock().unwrap();
            if first.is_empty() {
                *first = words.replace('\n', " ");
            }
        }));
    });
}

/// Calls the Rust; a panic becomes its words.
pub fn guarded<T>(ask: impl FnOnce() -> T) -> Result<T, String> {
    begin();
    PANIC.lock().unwrap().clear();
    catch_unwind(AssertUnwindSafe(ask)).map_err(|_| PANIC.lock().unwrap().clone())
}

/// The number and the milliseconds of a line "[generate_grid_sdf] WHAT: NUMBER in TIMEms".
fn logged(what: &str) -> Result<(u32, f64), String> {
    let parsed = LINES.with(|lines| {
        let lines = lines.borrow();
        let rest = lines.iter().find_map(|l| l.split_once(what).map(|(_, rest)| rest.to_string()))?;
        let (number, time) = rest.split_once(" in ")?;
        Some((number.parse().ok()?, time.strip_suffix("ms")?.parse().ok()?))
    });
    parsed.ok_or_else(|| format!("the source logged no line with \"{what}\""))
}
