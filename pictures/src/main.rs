//! Runs the two experiments of source 001 on the proved library, the first also by long sweeps and with three limiters,
//! and a thin gas, and draws them.
//!
//!     pictures DIRECTORY      writes wave.svg, long.svg, limiters.svg, hill.svg, thin.svg and results.txt there,
//!                             and prints the results
//!
//! It fails if a call is refused, if a gas total changed, or if some step did not bring the air back.

mod draw_hill;
mod draw_limiters;
mod draw_long;
mod draw_thin;
mod draw_wave;
mod hill;
mod limiters;
mod long;
mod plain;
mod progress;
mod results;
mod sphere;
mod svg;
mod thin;
mod wave;
mod whole;
mod world;

use std::error::Error;
use std::path::Path;
use world::Record;

struct Runs {
    wave: wave::Run,
    long: Vec<long::Run>,
    limiters: limiters::Run,
    hill: hill::Run,
    thin: thin::Run,
}

impl Runs {
    fn make() -> Result<Runs, Box<dyn Error>> {
        Ok(Runs {
            wave: wave::run()?,
            long: long::run()?,
            limiters: limiters::run()?,
            hill: hill::run()?,
            thin: thin::run()?,
        })
    }

    fn records(&self) -> Vec<&Record> {
        let lower = &self.limiters.lower.record;
        let mut records = vec![
            &self.wave.record,
            lower,
            &self.hill.record,
            &self.thin.record,
        ];
        records.extend(self.long.iter().map(|run| &run.wave.record));
        records.extend(self.limiters.gases.iter().map(|gas| &gas.wave.record));
        records
    }

    /// The pictures, with their files' names.
    fn pictures(&self) -> [(&'static str, String); 5] {
        let Runs {
            wave,
            long,
            limiters,
            hill,
            thin,
        } = self;
        [
            (
                "wave.svg",
                draw_wave::draw(wave, &results::wave_caption(wave)),
            ),
            (
                "long.svg",
                draw_long::draw(long, &results::long_lines(long)),
            ),
            (
                "limiters.svg",
                draw_limiters::draw(limiters, &results::limiter_caption(limiters)),
            ),
            (
                "hill.svg",
                draw_hill::draw(hill, &results::hill_caption(hill)),
            ),
            (
                "thin.svg",
                draw_thin::draw(thin, &results::thin_caption(thin)),
            ),
        ]
    }
}

fn make(directory: &Path) -> Result<(), Box<dyn Error>> {
    let runs = Runs::make()?;
    for record in runs.records() {
        record.check()?;
    }
    std::fs::create_dir_all(directory)?;
    for (name, picture) in runs.pictures() {
        std::fs::write(directory.join(name), picture)?;
    }
    let results = results::all(&runs);
    std::fs::write(directory.join("results.txt"), &results)?;
    print!("{results}");
    Ok(())
}

fn main() -> Result<(), Box<dyn Error>> {
    let directory = std::env::args().nth(1).ok_or("usage: pictures DIRECTORY")?;
    make(Path::new(&directory))
}
