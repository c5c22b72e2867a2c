//! Prints the levels of the soundings of a file, a frame in hexadecimal a line. With a grade it reads the second edition, which has wind.
//!
//! ```sh
//! cargo run --example soundings -- ../../examples/iced.hex
//! cargo run --example soundings -- ../../examples/winds.hex has-extensions
//! ```
use capgauze::{graded_soundings, soundings, Grade, Level};
use std::error::Error;

fn or_missing(value: Option<f64>) -> String {
    value.map_or("missing".to_string(), |number| format!("{number:.1}"))
}

fn level(level: &Level) -> String {
    let temperature = or_missing(level.temperature.map(|tenths| tenths as f64 / 10.0));
    let depression = or_missing(level.depression.map(|tenths| tenths as f64 / 10.0));
    format!("{} Pa, temperature {temperature}, depression {depression}", level.pressure)
}

fn main() -> Result<(), Box<dyn Error>> {
    let arguments: Vec<String> = std::env::args().skip(1).collect();
    let path = arguments.first().ok_or("a file is wanted")?;
    let text = std::fs::read_to_string(path)?;
    let lines = text.split_terminator('\n');
    let least = match arguments.get(1).map(String::as_str) {
        None => {
            for (frame, read) in (1..).zip(soundings(lines)) {
                match read {
                    Err(refused) => println!("{frame}: {refused}"),
                    Ok(ascent) => {
                        println!(
                            "{frame}: station {}, levels {}",
                            ascent.station,
                            ascent.levels.len()
                        );
                        ascent.levels.iter().for_each(|l| println!("  {}", level(l)));
                    }
                }
            }
            return Ok(());
        }
        Some("canonical") => Grade::Canonical,
        Some("has-extensions") => Grade::HasExtensions,
        Some("not-canonical") => Grade::NotCanonical,
        Some(other) => return Err(format!("no grade: {other}").into()),
    };
    for (frame, read) in (1..).zip(graded_soundings(lines, least)) {
        match read {
            Err(refused) => println!("{frame}: {refused}"),
            Ok(ascent) => {
                println!("{frame}: station {}, {:?}", ascent.station, ascent.grade);
                for windy in ascent.levels {
                    let speed = or_missing(windy.speed.map(|tenths| tenths as f64 / 10.0));
                    let from = windy.direction.map_or("missing".into(), |n| n.to_string());
                    println!("  {}, wind {speed} from {from}", level(&windy.level));
                }
            }
        }
    }
    Ok(())
}
