//! Corrects one level of a sounding. The level is a message in itself, and so is its correction, which came hours later: its fields replace
//! all of their tags.
//!
//! ```sh
//! cargo run --example correct -- ../../examples/corrected.hex
//! ```
//!
//! The file has the sounding, the correction of its second level, and what comes out, in hexadecimal.
use capgauze::{corrected, corrected_by, frame_bytes, Message, Supplier, WorkingCopy};
use std::error::Error;

fn main() -> Result<(), Box<dyn Error>> {
    let path = std::env::args().nth(1).ok_or("a file is wanted")?;
    let text = std::fs::read_to_string(path)?;
    let frames = text.lines().map(frame_bytes).collect::<Result<Vec<_>, _>>()?;
    let [sounding, correction, wanted] = &frames[..] else {
        return Err("three frames are wanted".into());
    };

    // station, launch, two levels: the second level is the field at 3
    let message = Message::read(sounding)?;
    let original = message.payload(3).ok_or("there is no second level")?;
    for (tag, name) in [(1, "pressure"), (2, "temperature"), (3, "depression")] {
        match corrected_by(original, correction, tag)? {
            Some(Supplier::Correction) => println!("{name}: from the correction"),
            Some(Supplier::Original) => println!("{name}: from the original"),
            None => println!("{name}: from neither"),
        }
    }

    let level = corrected(original, correction)?;
    let mut copy = WorkingCopy::of(sounding, sounding.len() + level.len(), 0)?;
    copy.replace(3, &level)?;
    let result = copy.message()?;
    for byte in &result {
        print!("{byte:02X}");
    }
    println!();
    assert_eq!(&result, wanted);
    Ok(())
}
