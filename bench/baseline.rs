//! The plain program that the product is measured beside: the same job, written straightforwardly
//! with nothing but std, and no proofs.
//!
//!     baseline script CLASSES RECODES PTABLE PEOPLE THRESHOLD SCRIPT
//!     baseline threads CLASSES RECODES PTABLE PEOPLE THRESHOLD SCRIPT
//!
//! It reads whole files, CSV with quotes, finds codes in hash maps, keeps the persons in a set and
//! the records in a list, and counts the table of any query by one scan of the list into a dense
//! array: a record is put into its own place and, with totals, into each margin where it lies. It
//! keeps the array of each query until a batch is published or the custodian clears them. For edits
//! it keeps a hash map from persons to places and one of all keys; a batch is made on a copy of the
//! list and of the places, which then stand in place of the old ones. With `threads` each processor
//! counts a part of the list, and the arrays are added up. It prints what the product prints. A
//! file, a query or an edit at fault ends it with a message and status 1.

use std::borrow::Cow;
use std::collections::{HashMap, HashSet};
use std::error::Error;
use std::io::{self, BufWriter, Write};
use std::{env, fs, thread};

type Outcome<T> = Result<T, Box<dyn Error>>;

const LAST_ROW: u32 = 750;
const LARGE_ROWS: u32 = 250;
const KEYS: usize = 256;
const MOST_PERSONS: usize = 1_000_000;

/// The records of a CSV file: fields are separated by commas, and one that begins with a double
/// quote ends at the next single one.
struct Rows<'a> {
    left: &'a [u8],
}

impl<'a> Rows<'a> {
    fn new(bytes: &'a [u8]) -> Rows<'a> {
        Rows {
            left: bytes.strip_prefix(b"\xef\xbb\xbf").unwrap_or(bytes),
        }
    }

    /// Reads the next record's fields, and answers whether there was one. Empty lines are none.
    fn read(&mut self, fields: &mut Vec<Cow<'a, [u8]>>) -> bool {
        fields.clear();
        while let [b'\r' | b'\n', rest @ ..] = self.left {
            self.left = rest;
        }
        if self.left.is_empty() {
            return false;
        }
        loop {
            fields.push(self.field());
            match self.left {
                [b',', rest @ ..] => self.left = rest,
                _ => return true,
            }
        }
    }

    fn field(&mut self) -> Cow<'a, [u8]> {
        match self.left {
            [b'"', rest @ ..] => {
                self.left = rest;
                Cow::Owned(self.quoted())
            }
            _ => Cow::Borrowed(self.plain()),
        }
    }

    fn plain(&mut self) -> &'a [u8] {
        let is_end = |byte: &u8| matches!(byte, b',' | b'\r' | b'\n');
        let end = self.left.iter().position(is_end);
        let (field, left) = self.left.split_at(end.unwrap_or(self.left.len()));
        self.left = left;
        field
    }

    /// The rest of a field after its opening quote. Two quotes in it stand for one.
    fn quoted(&mut self) -> Vec<u8> {
        let mut text = Vec::new();
        loop {
            let quote = self.left.iter().position(|byte| *byte == b'"');
            let (part, left) = self.left.split_at(quote.unwrap_or(self.left.len()));
            text.extend_from_slice(part);
            match left {
                [b'"', b'"', rest @ ..] => {
                    text.push(b'"');
                    self.left = rest;
                }
                [b'"', rest @ ..] => {
                    self.left = rest;
                    text.extend_from_slice(self.plain());
                    return text;
                }
                _ => {
                    self.left = left;
                    return text;
                }
            }
        }
    }
}

/// A file's header and then its records, each of the header's length.
struct Table<'a> {
    header: Vec<Cow<'a, [u8]>>,
    rows: Rows<'a>,
}

impl<'a> Table<'a> {
    fn new(bytes: &'a [u8]) -> Table<'a> {
        let mut rows = Rows::new(bytes);
        let mut header = Vec::new();
        rows.read(&mut header);
        Table { header, rows }
    }

    fn place_of(&self, name: &str) -> Outcome<usize> {
        let mut places = (0..self.header.len()).filter(|i| *self.header[*i] == *name.as_bytes());
        match (places.next(), places.next()) {
            (Some(place), None) => Ok(place),
            _ => Err(format!("the header doesn't have {name} exactly once").into()),
        }
    }

    fn read(&mut self, fields: &mut Vec<Cow<'a, [u8]>>) -> Outcome<bool> {
        let found = self.rows.read(fields);
        if found && fields.len() != self.header.len() {
            return Err("the number of fields isn't the header's".into());
        }
        Ok(found)
    }
}

fn number(text: &[u8]) -> Outcome<u32> {
    if text.is_empty() || text.len() > 10 || !text.iter().all(u8::is_ascii_digit) {
        return Err("not a number".into());
    }
    Ok(std::str::from_utf8(text)?.parse()?)
}

fn number_up_to(text: &[u8], most: u32) -> Outcome<u32> {
    match number(text)? {
        n if n <= most => Ok(n),
        _ => Err("a number is too large".into()),
    }
}

/// What a table may show by: a variable, each category of which is an entry of its own, or a recode
/// of it, which has an entry for each group.
#[derive(Clone, Default)]
struct Grouping {
    name: String,
    variable: usize,
    entry_of: Vec<u16>,
    codes: Vec<String>,
    labels: Vec<String>,
}

impl Grouping {
    fn texts(&self, labels: bool) -> &[String] {
        if labels { &self.labels } else { &self.codes }
    }
}

fn place_of_name(groupings: &[Grouping], name: &str) -> Option<usize> {
    groupings.iter().position(|grouping| grouping.name == name)
}

fn text(field: &[u8]) -> Outcome<&str> {
    Ok(std::str::from_utf8(field)?)
}

/// The variables, and for each a map from a code to its category.
type Variables = (Vec<Grouping>, Vec<HashMap<Vec<u8>, u16>>);

fn read_classes(bytes: &[u8]) -> Outcome<Variables> {
    let mut table = Table::new(bytes);
    let (name_at, code_at) = (table.place_of("variable")?, table.place_of("code")?);
    let label_at = table.place_of("label")?;
    let (mut variables, mut categories) = (Vec::<Grouping>::new(), Vec::<HashMap<_, _>>::new());
    let mut fields = Vec::new();
    while table.read(&mut fields)? {
        let name = text(&fields[name_at])?;
        let v = place_of_name(&variables, name).unwrap_or_else(|| {
            let (name, variable) = (name.to_string(), variables.len());
            variables.push(Grouping { name, variable, ..Grouping::default() });
            categories.push(HashMap::new());
            variable
        });
        let variable = &mut variables[v];
        let category = variable.codes.len() as u16;
        if categories[v].insert(fields[code_at].to_vec(), category).is_some() {
            return Err("a code stands twice".into());
        }
        variable.entry_of.push(category);
        variable.codes.push(text(&fields[code_at])?.to_string());
        variable.labels.push(text(&fields[label_at])?.to_string());
    }
    Ok((variables, categories))
}

/// The recodes, whose labels are their groups.
fn read_recodes(bytes: &[u8], (variables, categories): &Variables) -> Outcome<Vec<Grouping>> {
    let mut table = Table::new(bytes);
    let (name_at, variable_at) = (table.place_of("recode")?, table.place_of("variable")?);
    let (code_at, group_at) = (table.place_of("code")?, table.place_of("group")?);
    let mut recodes = Vec::<Grouping>::new();
    let mut fields = Vec::new();
    while table.read(&mut fields)? {
        let variable = place_of_name(variables, text(&fields[variable_at])?);
        let variable = variable.ok_or("a variable is unknown")?;
        let name = text(&fields[name_at])?;
        let r = place_of_name(&recodes, name).unwrap_or_else(|| {
            let entry_of = vec![u16::MAX; variables[variable].codes.len()];
            recodes.push(Grouping { name: name.to_string(), variable, entry_of, ..Grouping::default() });
            recodes.len() - 1
        });
        let recode = &mut recodes[r];
        let category = categories[variable].get(&*fields[code_at]).ok_or("a code is unknown")?;
        let group = text(&fields[group_at])?;
        let entry = recode.codes.iter().position(|code| code == group).unwrap_or_else(|| {
            recode.codes.push(group.to_string());
            recode.labels.push(group.to_string());
            recode.codes.len() - 1
        });
        recode.entry_of[*category as usize] = entry as u16;
    }
    if recodes.iter().any(|recode| recode.entry_of.contains(&u16::MAX)) {
        return Err("a recode lacks a code".into());
    }
    Ok(recodes)
}

/// The pvalue of each row and cell key.
fn read_ptable(bytes: &[u8]) -> Outcome<Vec<Option<i16>>> {
    let mut table = Table::new(bytes);
    let (pcv_at, ckey_at) = (table.place_of("pcv")?, table.place_of("ckey")?);
    let pvalue_at = table.place_of("pvalue")?;
    let mut pvalues = vec![None; (LAST_ROW as usize + 1) * KEYS];
    let mut fields = Vec::new();
    while table.read(&mut fields)? {
        let pcv = number_up_to(&fields[pcv_at], LAST_ROW)?;
        let ckey = number_up_to(&fields[ckey_at], KEYS as u32 - 1)?;
        let pvalue = match &*fields[pvalue_at] {
            [b'-', digits @ ..] => -(number_up_to(digits, 1000)? as i32),
            digits => number_up_to(digits, 1000)? as i32,
        };
        if (pcv as i32) + pvalue < 0 || (pcv == 0 && pvalue != 0) {
            return Err("a pvalue leaves a count negative".into());
        }
        let place = &mut pvalues[pcv as usize * KEYS + ckey as usize];
        if place.replace(pvalue as i16).is_some() {
            return Err("a pair stands twice".into());
        }
    }
    Ok(pvalues)
}

#[derive(Clone)]
struct Record {
    person: u32,
    key: u8,
    categories: Vec<u16>,
}

fn read_people(
    bytes: &[u8],
    (variables, categories_of): &Variables,
) -> Outcome<Vec<Record>> {
    let mut table = Table::new(bytes);
    let (person_at, key_at) = (table.place_of("person")?, table.place_of("record_key")?);
    let places = variables
        .iter()
        .map(|variable| table.place_of(&variable.name))
        .collect::<Outcome<Vec<usize>>>()?;
    let mut persons = HashSet::new();
    let mut records = Vec::new();
    let mut fields = Vec::new();
    while table.read(&mut fields)? {
        let person = number(&fields[person_at])?;
        if person == 0 {
            return Err("a person is 0".into());
        }
        let key = number_up_to(&fields[key_at], KEYS as u32 - 1)? as u8;
        let categories = categories_of
            .iter()
            .zip(&places)
            .map(|(category_of, place)| category_of.get(&*fields[*place]).copied())
            .collect::<Option<Vec<u16>>>()
            .ok_or("a code is unknown")?;
        if !persons.insert(person) {
            return Err("a person stands twice".into());
        }
        if records.len() == MOST_PERSONS {
            return Err("there are too many persons".into());
        }
        records.push(Record { person, key, categories });
    }
    Ok(records)
}

#[derive(Clone, Copy, Default)]
struct Cell {
    count: u32,
    key: u8,
}

fn shown(pvalues: &[Option<i16>], threshold: u32, cell: Cell) -> Option<u32> {
    let row = match cell.count {
        0 => return if threshold == 0 { Some(0) } else { None },
        count if count <= LAST_ROW => count,
        count => LAST_ROW - LARGE_ROWS + 1 + (count - 1) % LARGE_ROWS,
    };
    let pvalue = pvalues[row as usize * KEYS + cell.key as usize].unwrap_or(0);
    let value = (cell.count as i32 + i32::from(pvalue)) as u32;
    (value >= threshold).then_some(value)
}

fn put(cell: &mut Cell, key: u8) {
    cell.count += 1;
    cell.key = cell.key.wrapping_add(key);
}

struct Filter {
    variable: usize,
    passes: Vec<bool>,
}

struct Query<'a> {
    dimensions: Vec<&'a Grouping>,
    filters: Vec<Filter>,
    totals: bool,
    labels: bool,
}

impl<'a> Query<'a> {
    /// Reads `table A by B where C in (1,2) and D not in (3) with totals with labels`.
    fn read(line: &str, groupings: &'a [Grouping]) -> Outcome<Query<'a>> {
        let spaced = line.replace('(', " ( ").replace(')', " ) ").replace(',', " , ");
        let mut words = spaced.split_whitespace().peekable();
        let find = |name: Option<&str>| -> Outcome<&'a Grouping> {
            let place = name.and_then(|name| place_of_name(groupings, name));
            Ok(&groupings[place.ok_or("a name is unknown")?])
        };
        if words.next() != Some("table") {
            return Err("a line asks for no table".into());
        }
        let mut query =
            Query { dimensions: Vec::new(), filters: Vec::new(), totals: false, labels: false };
        query.dimensions.push(find(words.next())?);
        while words.next_if_eq(&"by").is_some() {
            query.dimensions.push(find(words.next())?);
        }
        let mut word = words.next();
        while matches!(word, Some("where" | "and")) {
            let grouping = find(words.next())?;
            let negated = words.next_if_eq(&"not").is_some();
            let mut listed = vec![false; grouping.codes.len()];
            for code in words.by_ref().skip(2).take_while(|word| *word != ")") {
                if code != "," {
                    let place = grouping.codes.iter().position(|known| known == code);
                    listed[place.ok_or("a code is unknown")?] = true;
                }
            }
            let passes = grouping.entry_of.iter().map(|entry| listed[*entry as usize] != negated);
            query.filters.push(Filter { variable: grouping.variable, passes: passes.collect() });
            word = words.next();
        }
        while let Some("with") = word {
            match words.next() {
                Some("totals") => query.totals = true,
                Some("labels") => query.labels = true,
                _ => return Err("a query is not understood".into()),
            }
            word = words.next();
        }
        Ok(query)
    }

    /// How many entries each dimension has, with Total.
    fn sizes(&self) -> Vec<usize> {
        let total = usize::from(self.totals);
        self.dimensions.iter().map(|dimension| dimension.codes.len() + total).collect()
    }

    fn passes(&self, record: &Record) -> bool {
        let passed = |filter: &Filter| filter.passes[record.categories[filter.variable] as usize];
        self.filters.iter().all(passed)
    }
}

fn entry(dimension: &Grouping, record: &Record) -> usize {
    dimension.entry_of[record.categories[dimension.variable] as usize] as usize
}

/// The cells of a table, the last dimension fastest.
fn count(query: &Query, records: &[Record]) -> Vec<Cell> {
    let sizes = query.sizes();
    let mut cells = vec![Cell::default(); sizes.iter().product()];
    let passed = records.iter().filter(|record| query.passes(record));
    match (query.dimensions.as_slice(), query.totals) {
        ([one], false) => {
            for record in passed {
                put(&mut cells[entry(one, record)], record.key);
            }
        }
        ([one, two], false) => {
            for record in passed {
                put(&mut cells[entry(one, record) * sizes[1] + entry(two, record)], record.key);
            }
        }
        ([one, two], true) => {
            let (last_row, last) = ((sizes[0] - 1) * sizes[1], sizes[1] - 1);
            for record in passed {
                let (row, column) = (entry(one, record) * sizes[1], entry(two, record));
                for place in [row + column, row + last, last_row + column, last_row + last] {
                    put(&mut cells[place], record.key);
                }
            }
        }
        (dimensions, totals) => {
            let margins = if totals { 1 << dimensions.len() } else { 1 };
            for record in passed {
                for margin in 0..margins {
                    let of = dimensions.iter().zip(&sizes).enumerate();
                    let place = of.fold(0, |place, (d, (dimension, size))| {
                        let is_total = margin & (1 << d) != 0;
                        place * size + if is_total { size - 1 } else { entry(dimension, record) }
                    });
                    put(&mut cells[place], record.key);
                }
            }
        }
    }
    cells
}

/// The same, of which each processor counts a part of the records in a thread of its own.
fn count_by_threads(query: &Query, records: &[Record]) -> Vec<Cell> {
    let processors = thread::available_parallelism().map_or(1, usize::from);
    let size = records.len().div_ceil(processors).max(1);
    let mut cells = vec![Cell::default(); query.sizes().iter().product()];
    thread::scope(|scope| {
        let spawn = |part| scope.spawn(move || count(query, part));
        let parts: Vec<_> = records.chunks(size).map(spawn).collect();
        for part in parts {
            let counted = part.join().expect("no thread panics");
            for (cell, more) in cells.iter_mut().zip(counted) {
                cell.count += more.count;
                cell.key = cell.key.wrapping_add(more.key);
            }
        }
    });
    cells
}

fn print_field(out: &mut impl Write, text: &str) -> io::Result<()> {
    if text.contains(['"', ',', '\r', '\n']) {
        write!(out, "\"{}\",", text.replace('"', "\"\""))
    } else {
        write!(out, "{text},")
    }
}

enum Edit {
    Add(Record),
    Amend(u32, Vec<(usize, u16)>),
    Drop(u32),
}

impl Edit {
    /// Reads `add PERSON KEY VAR=CODE ..`, `amend PERSON VAR=CODE ..` or `drop PERSON`.
    fn read(line: &str, (variables, categories_of): &Variables) -> Outcome<Edit> {
        let mut words = line.split_whitespace();
        let kind = words.next().ok_or("a line is empty")?;
        let person = number(words.next().ok_or("a person is missing")?.as_bytes())?;
        let key = match kind {
            "add" => number_up_to(words.next().ok_or("a key is missing")?.as_bytes(), 255)? as u8,
            _ => 0,
        };
        let settings = words
            .map(|word| {
                let (name, code) = word.split_once('=').ok_or("a setting has no =")?;
                let variable = place_of_name(variables, name).ok_or("a variable is unknown")?;
                let category = categories_of[variable].get(code.as_bytes());
                Ok((variable, *category.ok_or("a code is unknown")?))
            })
            .collect::<Outcome<Vec<(usize, u16)>>>()?;
        match kind {
            "add" if settings.len() == variables.len() => {
                let mut categories = vec![0; variables.len()];
                for (variable, category) in settings {
                    categories[variable] = category;
                }
                Ok(Edit::Add(Record { person, key, categories }))
            }
            "amend" if !settings.is_empty() => Ok(Edit::Amend(person, settings)),
            "drop" if settings.is_empty() => Ok(Edit::Drop(person)),
            _ => Err("an edit is not understood".into()),
        }
    }
}

/// A release, with what edits need: where each person's record is, and the key of each person who
/// ever had one. It is made when the first edit comes.
struct Release {
    number: u32,
    records: Vec<Record>,
    places: HashMap<u32, usize>,
    keys: HashMap<u32, u8>,
}

impl Release {
    fn first(records: Vec<Record>) -> Release {
        Release { number: 0, records, places: HashMap::new(), keys: HashMap::new() }
    }

    fn index(&mut self) {
        if self.places.is_empty() {
            let places = self.records.iter().enumerate();
            self.places = places.map(|(place, record)| (record.person, place)).collect();
            self.keys = self.records.iter().map(|record| (record.person, record.key)).collect();
        }
    }

    /// Makes the edits, all or none.
    fn publish(&mut self, edits: Vec<Edit>) -> Outcome<()> {
        self.index();
        let (mut records, mut places) = (self.records.clone(), self.places.clone());
        let mut keys = Vec::new();
        for edit in edits {
            match edit {
                Edit::Add(record) => {
                    let other_key = self.keys.get(&record.person).is_some_and(|key| *key != record.key);
                    if other_key || places.insert(record.person, records.len()).is_some() {
                        return Err("a person can't be added".into());
                    }
                    keys.push((record.person, record.key));
                    records.push(record);
                }
                Edit::Amend(person, settings) => {
                    let place = *places.get(&person).ok_or("a person has no record")?;
                    for (variable, category) in settings {
                        records[place].categories[variable] = category;
                    }
                }
                Edit::Drop(person) => {
                    let place = places.remove(&person).ok_or("a person has no record")?;
                    records.swap_remove(place);
                    if let Some(moved) = records.get(place) {
                        places.insert(moved.person, place);
                    }
                }
            }
        }
        (self.records, self.places) = (records, places);
        self.keys.extend(keys);
        self.number += 1;
        Ok(())
    }
}

fn print_table(
    out: &mut impl Write,
    query: &Query,
    number: u32,
    cells: &[Cell],
    pvalues: &[Option<i16>],
    threshold: u32,
) -> io::Result<()> {
    let sizes = query.sizes();
    writeln!(out, "release {number}")?;
    for dimension in &query.dimensions {
        print_field(out, &dimension.name)?;
    }
    writeln!(out, "count")?;
    let places = cells.len();
    for (place, cell) in cells.iter().enumerate() {
        let (mut block, mut rest) = (places, place);
        for (dimension, size) in query.dimensions.iter().zip(&sizes) {
            block /= size;
            let texts = dimension.texts(query.labels);
            print_field(out, texts.get(rest / block).map_or("Total", String::as_str))?;
            rest %= block;
        }
        match shown(pvalues, threshold, *cell) {
            Some(value) => writeln!(out, "{value}")?,
            None => writeln!(out, "c")?,
        }
    }
    writeln!(out, ".")
}

fn main() -> Outcome<()> {
    let usage = "usage: baseline script|threads CLASSES RECODES PTABLE PEOPLE THRESHOLD SCRIPT";
    let words: Vec<String> = env::args().skip(1).collect();
    let [command, classes, recodes, ptable, people, threshold, script] = words.as_slice() else {
        return Err(usage.into());
    };
    let count_all = match command.as_str() {
        "script" => count,
        "threads" => count_by_threads,
        _ => return Err(usage.into()),
    };
    let threshold = number_up_to(threshold.as_bytes(), 1_000_000)?;
    let schema = read_classes(&fs::read(classes)?)?;
    let recodes = match recodes.as_str() {
        "-" => Vec::new(),
        path => read_recodes(&fs::read(path)?, &schema)?,
    };
    let pvalues = read_ptable(&fs::read(ptable)?)?;
    let mut release = Release::first(read_people(&fs::read(people)?, &schema)?);
    let groupings: Vec<Grouping> = schema.0.iter().cloned().chain(recodes).collect();
    let mut held = Vec::new();
    let mut kept = HashMap::<String, Vec<Cell>>::new();
    let mut out = BufWriter::new(io::stdout().lock());
    for line in fs::read_to_string(script)?.lines() {
        match line.split_once(' ').ok_or("a line has no lane")? {
            ("custodian", "publish") => {
                release.publish(std::mem::take(&mut held))?;
                kept.clear();
                writeln!(out, "published {}", release.number)?;
            }
            ("custodian", "clear") => {
                kept.clear();
                writeln!(out, "cleared")?;
            }
            ("custodian", edit) => {
                held.push(Edit::read(edit, &schema)?);
                writeln!(out, "held {}", held.len())?;
            }
            (_, line) => {
                let query = Query::read(line, &groupings)?;
                if !kept.contains_key(line) {
                    kept.insert(line.to_string(), count_all(&query, &release.records));
                }
                print_table(&mut out, &query, release.number, &kept[line], &pvalues, threshold)?;
            }
        }
    }
    Ok(out.flush()?)
}
