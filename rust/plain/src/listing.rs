//! The list as it is printed.
use crate::list::Line;
use crate::tables::*;
use std::io::Write;

/// Puts one line's physical value into the listing.
fn put_physical(out: &mut Vec<u8>, text: &[u8], line: &Line) {
    // A lent line may hold any numbers: a text is what the description has between the two places.
    let place = |number: i64| (number.unsigned_abs() as usize).min(text.len());
    let (from, past) = (place(line.first), place(line.second));
    match line.state {
        1 => drop(write!(out, "{}/{}", line.first, line.second)),
        2 => out.extend(text.get(from..past).unwrap_or(b"")),
        _ => out.push(b'-'),
    }
}

/// Prints the whole list.
pub fn listing(text: &[u8], image: &[u8], base: u32, cells: &[u64], lines: &[Line]) -> Result<Vec<u8>, u8> {
    if let Some(number) = check(cells, text.len(), image.len(), base, Some(lines.len())) {
        return Err(number);
    }
    let mut out = b"name\tpart\tindex\traw\tphysical\n".to_vec();
    let mut at = 0;
    for object in 0..cells[OBJECTS] as usize {
        let name = record(cells, OBJECTS, OBJECT_WIDTH, object);
        let name = &text[name[0] as usize..name[1] as usize];
        for (part, letter) in ["x", "y", "v"].iter().enumerate() {
            let group = record(cells, GROUPS, GROUP_WIDTH, 3 * object + part);
            for index in 0..group[3] * group[4] {
                let line = &lines[at];
                out.extend(name);
                drop(write!(out, "\t{letter}\t{index}\t{}\t", line.raw));
                put_physical(&mut out, text, line);
                out.push(b'\n');
                at += 1;
            }
        }
    }
    Ok(out)
}
