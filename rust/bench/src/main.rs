//! Times each planner's calls on the same full halls and prints docs/BENCHMARKS.md. A time is a hall's best of several runs;
//! the planners take turns, so that what else the machine does meets them alike.

mod beside;
mod calls;
mod growth;
mod table;

use beside::BESIDE;
use calls::{Case, CALLS, RUNS};
use compare::{planners, Lists};
use halls::{full_hall, Kind, KINDS};
use table::Table;

const HALLS: u64 = 30;
const FULL: usize = 64;
const SIZES: [usize; 4] = [8, 16, 32, FULL];

/// The machine's load over the last minute, as the system tells it.
fn load() -> String {
    let told = std::fs::read_to_string("/proc/loadavg").unwrap_or_default();
    told.split(' ').next().unwrap_or_default().to_string()
}

fn cases(kind: Kind, n: usize, lent: &mut Lists) -> Vec<Case> {
    (0..HALLS).map(|seed| Case::new(full_hall(kind, n, seed), n, lent)).collect()
}

fn main() {
    let planners = planners();
    let threads = std::thread::available_parallelism().map_or(1, usize::from);
    println!("# Benchmarks\n");
    println!("Made anew by `tools/benchmarks`, on {threads} processors at a load of {} when it began.\n", load());
    println!(
        "Each line is {HALLS} halls of n junctions and m = 4n rows; a hall's time is its best of {RUNS} runs, from the file's bytes to the
reply. `reference` takes the same steps in plain Rust, unproved (`rust/reference`); what it does otherwise stands in
`docs/DECISIONS.md`, 19. `library` is the proved static library, called through `rust/himalowen`. Ratios are library over
reference, hall by hall."
    );
    let mut lent = Lists::enough();
    for call in CALLS {
        let mut table = Table::new(call, &planners);
        for kind in KINDS {
            for n in SIZES {
                table.line(kind.name(), n, &cases(kind, n, &mut lent), &mut lent);
            }
        }
        table.growth();
        table.end(FULL);
    }
    for beside in BESIDE {
        beside.print_head(&planners);
        for kind in KINDS {
            beside.print_line(kind.name(), FULL, &planners, &cases(kind, FULL, &mut lent), &mut lent);
        }
    }
}
