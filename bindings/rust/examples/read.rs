//! Prints the fields of a message, and those of each payload that is a message in itself.
//!
//! ```sh
//! cargo run --example read -- 0401090404070478
//! ```
use capgauze::{frame_bytes, Message, Value};
use std::process::ExitCode;

fn print(message: &Message, depth: usize) {
    let indent = "  ".repeat(depth);
    for (index, field) in message.fields().enumerate() {
        match field.value {
            Value::Varint(number) => println!("{indent}{}: {number}", field.tag),
            Value::ThirtyTwoBit(number) => {
                println!("{indent}{}: {number} in four bytes", field.tag)
            }
            Value::SixtyFourBit(number) => {
                println!("{indent}{}: {number} in eight bytes", field.tag)
            }
            Value::LengthDelimited { start, length } => {
                println!("{indent}{}: {length} bytes from {start} on", field.tag);
                // Whether a payload is a message only its schema says. Many a text would be read as one, too.
                let payload = message.payload(index).unwrap_or_default();
                if let Ok(inner) = Message::read(payload) {
                    print(&inner, depth + 1);
                }
            }
        }
    }
}

fn main() -> ExitCode {
    let text = std::env::args().nth(1).unwrap_or_default();
    let Ok(bytes) = frame_bytes(&text) else {
        eprintln!("not hexadecimal: {text}");
        return ExitCode::from(2);
    };
    match Message::read(&bytes) {
        Ok(message) => print(&message, 0),
        Err(refused) => println!("{refused}"),
    }
    ExitCode::SUCCESS
}
