//! The comparison: run files from seeds, each played by the model and by the bench, whose listings
//! must be the same bytes; and in the model agreement must hold.

use std::fs::{self, File};
use std::io;
use std::path::{Path, PathBuf};
use std::process::{Command, Stdio};
use std::sync::atomic::{AtomicU64, Ordering};
use std::thread;

use crate::breach::Breach;
use crate::builds::{Build, RIGHT, WRONG, WRONG_RULES};
use crate::coverage::{add_all, Coverage, Onlooker};
use crate::listing::{list, Unwatched};
use crate::{damage, directed, generate, releases};

/// So many listings at least must tell each wrong build from the bench.
const LEAST_TOLD_APART: u64 = 20;

/// After so many differences the rest is not looked at.
const ENOUGH: usize = 10;

/// A seed's file: of twenty, two are damaged, one is directed at a wrong build, and one goes
/// through the turns of releases.
pub fn file_of(seed: u64, build: Build) -> Vec<u8> {
    match seed % 20 {
        0 | 10 => damage::run(seed / 10),
        5 => directed::run(seed, (seed / 20) as usize % WRONG_RULES, build),
        15 => releases::run(seed, build),
        _ => generate::run(seed, build),
    }
}

/// A listing of a file, and the first breach of each kind, with the place of its event.
pub fn watched(
    bytes: &[u8],
    build: Build,
    coverage: &mut Coverage,
) -> (Vec<u8>, Vec<(u64, Breach)>) {
    let mut onlooker = Onlooker::new(coverage);
    let listing = list(bytes, build, &mut onlooker);
    (listing, onlooker.breaches())
}

/// What one worker found.
#[derive(Default)]
struct Found {
    coverage: Coverage,
    differences: Vec<String>,
    /// For each wrong build, the files that it lists otherwise than the bench.
    told_apart: [u64; WRONG.len()],
}

impl Found {
    /// The differences; or, where there are none, what was met too rarely for that to count.
    fn complaints(self) -> Vec<String> {
        if !self.differences.is_empty() {
            return self.differences;
        }
        let mut lacks = self.coverage.lacks();
        for (times, (name, _)) in self.told_apart.into_iter().zip(WRONG) {
            if times < LEAST_TOLD_APART {
                lacks.push(format!("{} listings tell one apart that {}", times, name));
            }
        }
        lacks
    }

    fn print(&self) {
        self.coverage.print();
        for (times, (name, _)) in self.told_apart.into_iter().zip(WRONG) {
            println!("{} listings tell one apart that {}", times, name);
        }
    }
}

struct Comparison<'a> {
    bench: &'a Path,
    folder: &'a Path,
    files: u64,
    next: AtomicU64,
}

impl Comparison<'_> {
    fn work(&self, worker: usize) -> io::Result<Found> {
        let mut found = Found::default();
        let run_file = self.folder.join(format!("worker-{}.run", worker));
        fs::write(&run_file, [])?;
        while found.differences.len() < ENOUGH {
            let seed = self.next.fetch_add(1, Ordering::Relaxed);
            if seed >= self.files {
                break;
            }
            self.compare(seed, &run_file, &mut found)?;
        }
        fs::remove_file(&run_file)?;
        Ok(found)
    }

    fn compare(&self, seed: u64, run_file: &Path, found: &mut Found) -> io::Result<()> {
        let bytes = file_of(seed, RIGHT);
        fs::write(run_file, &bytes)?;
        let theirs = listing_by(self.bench, run_file)?;
        let (ours, breaches) = watched(&bytes, RIGHT, &mut found.coverage);
        for (place, breach) in breaches {
            found.differences.push(format!("seed {}: after event {} {}", seed, place, breach));
        }
        if ours != theirs {
            found.differences.push(self.keep(seed, &bytes, &ours, &theirs)?);
        }
        for (times, (_, build)) in found.told_apart.iter_mut().zip(WRONG) {
            *times += u64::from(list(&bytes, build, &mut Unwatched) != theirs);
        }
        Ok(())
    }

    /// Keeps a file whose listings differ, and says where, and in which line first.
    fn keep(&self, seed: u64, bytes: &[u8], ours: &[u8], theirs: &[u8]) -> io::Result<String> {
        let path = |end: &str| self.folder.join(format!("seed-{}.{}", seed, end));
        fs::write(path("run"), bytes)?;
        fs::write(path("model"), ours)?;
        fs::write(path("bench"), theirs)?;
        let same = ours.iter().zip(theirs).take_while(|(ours, theirs)| ours == theirs).count();
        let line = 1 + ours[..same].iter().filter(|&&byte| byte == b'\n').count();
        let at = path("run");
        Ok(format!("seed {}: the listings differ in line {}: {}", seed, line, at.display()))
    }
}

/// What a program writes for a run file.
pub fn listing_by(program: &Path, run_file: &Path) -> io::Result<Vec<u8>> {
    let input = File::open(run_file)?;
    let output = Command::new(program).stdin(input).stderr(Stdio::inherit()).output()?;
    if output.status.success() {
        return Ok(output.stdout);
    }
    let said = format!("{} < {}: {}", program.display(), run_file.display(), output.status);
    Err(io::Error::new(io::ErrorKind::Other, said))
}

/// Compares that many files and says what is wrong, line by line; with `counts` says what was met.
pub fn run(bench: PathBuf, folder: PathBuf, files: u64, counts: bool) -> io::Result<bool> {
    fs::create_dir_all(&folder)?;
    let comparison = Comparison { bench: &bench, folder: &folder, files, next: AtomicU64::new(0) };
    let found = all_workers(&comparison)?;
    if counts {
        found.print();
    }
    let complaints = found.complaints();
    for complaint in &complaints {
        println!("{}", complaint);
    }
    Ok(complaints.is_empty())
}

fn all_workers(comparison: &Comparison) -> io::Result<Found> {
    let workers = thread::available_parallelism().map_or(2, |count| count.get());
    let results: Vec<io::Result<Found>> = thread::scope(|scope| {
        let spawn = |worker| scope.spawn(move || comparison.work(worker));
        let running: Vec<_> = (0..workers).map(spawn).collect();
        let failed = |_| Err(io::Error::new(io::ErrorKind::Other, "a worker failed"));
        running.into_iter().map(|worker| worker.join().unwrap_or_else(failed)).collect()
    });
    let mut all = Found::default();
    for found in results {
        let found = found?;
        all.coverage.add(&found.coverage);
        all.differences.extend(found.differences);
        add_all(&mut all.told_apart, &found.told_apart);
    }
    Ok(all)
}
