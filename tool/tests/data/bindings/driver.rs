//! Reads, checks, writes and reads again what it is told: `MODULE FILE` on each line of standard input.

use std::fs;
use std::io::{self, BufRead};

use CRATE::support::{faults_of, Check, ReadError, Root};

/// What became of a text; `written` is where it is written.
fn round<T>(root: &Root, text: &str, written: &str) -> String
where
    T: serde::de::DeserializeOwned + serde::Serialize + Check + PartialEq,
{
    let read = root.read(text);
    // Where the root is the right one, the reader of quick-xml takes and refuses the same.
    let same = match (&read, quick_xml::de::from_str::<T>(text)) {
        (Ok(one), Ok(other)) => *one == other,
        (Err(ReadError::Root(_)), _) | (Err(_), Err(_)) => true,
        // This reader alone has a bound, and does not run out of stack.
        (Err(error), _) => error.to_string().starts_with("more than 255 elements"),
        _ => false,
    };
    if !same {
        return "read otherwise than by quick-xml".to_owned();
    }
    let value: T = match read {
        Ok(value) => value,
        Err(error) => return format!("unread {error}"),
    };
    let again = match root.write(&value) {
        Ok(again) => again,
        Err(error) => return format!("unwritten {error}"),
    };
    if fs::write(written, &again).is_err() {
        return "no file".to_owned();
    }
    match root.read::<T>(&again) {
        Ok(second) if second == value => {}
        _ => return "differs".to_owned(),
    }
    let faults = faults_of(&value);
    match (faults.0.first(), root.read_checked::<T>(text)) {
        (None, Ok(checked)) if checked == value => "good".to_owned(),
        (Some(fault), Err(_)) => format!("fault {fault}"),
        (None, Err(error)) => format!("checked {error}"),
        _ => "checked otherwise".to_owned(),
    }
}

fn main() {
    for line in io::stdin().lock().lines().map_while(Result::ok) {
        let Some((module, file)) = line.split_once(' ') else {
            continue;
        };
        let text = fs::read_to_string(file).unwrap_or_default();
        let written = format!("{file}.out");
        let told = match module {
            // MODULES
            _ => "no module".to_owned(),
        };
        println!("{file} {}", told.replace('\n', " "));
    }
}
