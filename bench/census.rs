// Writes the persons of a census, by itself and without a library:
//
//     census PERSONS START MORE
//
// PERSONS persons, numbered from 1, on the standard output: those of `generate.py`, which for START are the
// same bytes, and for each of them a category of MORE further variables, V1, V2 and so on, of ten each.
use std::io::{self, BufWriter, Write};

// The values of a linear congruential generator.
struct Draw(u32);

impl Draw {
    fn next(&mut self) -> u32 {
        self.0 = self.0.wrapping_mul(1_664_525).wrapping_add(1_013_904_223);
        self.0 >> 16
    }
}

fn write_census(persons: u32, start: u32, more: u32, out: &mut impl Write) -> io::Result<()> {
    write!(out, "person,record_key,AREA,AGE,SEX,TENURE")?;
    for variable in 1..=more {
        write!(out, ",V{variable}")?;
    }
    writeln!(out)?;
    let mut draw = Draw(start);
    for person in 1..=persons {
        let key = draw.next() % 256;
        let (area, age) = (draw.next() % 100, draw.next() % 101);
        let (sex, tenure) = (draw.next() % 2 + 1, draw.next() % 5 + 1);
        write!(out, "{person},{key},a{area},{age},{sex},{tenure}")?;
        for _ in 0..more {
            write!(out, ",{}", draw.next() % 10)?;
        }
        writeln!(out)?;
    }
    out.flush()
}

fn main() -> io::Result<()> {
    let numbers: Vec<u32> = std::env::args().skip(1).filter_map(|word| word.parse().ok()).collect();
    let [persons, start, more] = numbers[..] else {
        eprintln!("census PERSONS START MORE");
        std::process::exit(2);
    };
    write_census(persons, start, more, &mut BufWriter::with_capacity(1 << 20, io::stdout().lock()))
}
