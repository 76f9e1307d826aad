//! Runs the directives of a data file, line after line, and gives the output.

use crate::fields::{cells, landings, lengths, named, named_numbers, named_text, number};
use crate::notation::bytes;
use crate::planner::Planner;
use crate::sharing;
use crate::text;
use std::collections::{BTreeMap, BTreeSet};
use uldhvamm::{Answer, CostTable, Lengths, Question, Tables, MAX_SITES};

/// Tables without entries.
const EMPTY: Lengths = Lengths {
    starts: 0,
    ends: 0,
    prices: 0,
    landings: 0,
    by_end: 0,
    places: 0,
    cells: 0,
    marks: 0,
    plan: 0,
    shares: 0,
};

/// A mark before a call.
const MARK: u8 = 9;

/// What runs the `read` lines: the plan reader, or the sharing, which is to answer the same and to leave the same in the reader's tables.
#[derive(Clone, Copy, Debug)]
pub enum Reader {
    Reading,
    Sharing,
}

/// What a planner prints for the cases of a data file, or the line that is not readable.
pub fn output(planner: Planner, reader: Reader, cases: &str) -> Result<String, String> {
    let mut runner = Runner::new(planner, reader);
    for (line, directive) in (1..).zip(cases.lines()) {
        if !directive.is_empty() && !directive.starts_with('#') {
            let done = runner.obey(directive);
            done.map_err(|words| format!("line {line}: {words}"))?;
        }
    }
    Ok(runner.output)
}

/// What the earlier directives have set, and the output.
struct Runner {
    planner: Planner,
    reader: Reader,
    lengths: Lengths,
    lent: Lengths,
    fill: u32,
    sheets: BTreeMap<String, Vec<u8>>,
    sheet: Vec<u8>,
    cells: Vec<u32>,
    landings: Vec<u16>,
    names: BTreeSet<String>,
    output: String,
}

impl Runner {
    fn new(planner: Planner, reader: Reader) -> Runner {
        Runner {
            planner,
            reader,
            lengths: EMPTY,
            lent: EMPTY,
            fill: 4_000_000_005,
            sheets: BTreeMap::new(),
            sheet: Vec::new(),
            cells: Vec::new(),
            landings: Vec::new(),
            names: BTreeSet::new(),
            output: String::new(),
        }
    }

    /// Runs a directive.
    fn obey(&mut self, directive: &str) -> Result<(), String> {
        let (word, rest) = directive.split_once(' ').unwrap_or((directive, ""));
        match word {
            "tables" => self.set_tables(rest),
            "lend" => self.set_lent(rest),
            "fill" => self.set_fill(rest),
            "sheet" => self.set_sheet(rest),
            "load" => self.load(rest),
            "cuts" => self.cuts(rest),
            "read" => self.read(rest),
            "share" => self.share(rest),
            "plan" => self.plan(rest),
            "cells" => self.set_cells(rest),
            "landings" => self.set_landings(rest),
            "cell" => self.cell(rest),
            "sender" => self.sender(rest),
            "every" => self.every(rest),
            _ => Err(format!("{word} is no directive")),
        }
    }

    /// `tables`: all entries are lent.
    fn set_tables(&mut self, rest: &str) -> Result<(), String> {
        self.lengths = lengths(rest)?;
        self.lent = self.lengths;
        Ok(())
    }

    /// `lend`.
    fn set_lent(&mut self, rest: &str) -> Result<(), String> {
        self.lent = match rest {
            "all" => self.lengths,
            _ => lengths(rest)?,
        };
        Ok(())
    }

    /// `fill`.
    fn set_fill(&mut self, rest: &str) -> Result<(), String> {
        self.fill = number(rest)?;
        Ok(())
    }

    /// `cells`.
    fn set_cells(&mut self, rest: &str) -> Result<(), String> {
        self.cells = cells(rest)?;
        Ok(())
    }

    /// `landings`.
    fn set_landings(&mut self, rest: &str) -> Result<(), String> {
        self.landings = landings(rest)?;
        Ok(())
    }

    /// `sheet`: a new sheet, or an earlier one by its name.
    fn set_sheet(&mut self, rest: &str) -> Result<(), String> {
        if let (name, None) = named(rest) {
            let sheet = self.sheets.get(name);
            self.sheet = sheet.ok_or(format!("no sheet {name}"))?.clone();
            return Ok(());
        }
        self.take_sheet(rest).map(drop)
    }

    /// The name of a case. Where bytes stand after it, they are the sheet, which gets that name.
    fn take_sheet<'a>(&mut self, rest: &'a str) -> Result<&'a str, String> {
        let (name, notation) = named(rest);
        if let Some(notation) = notation {
            self.sheet = bytes(notation)?;
            let before = self.sheets.insert(name.to_string(), self.sheet.clone());
            if before.is_some() {
                return Err(format!("there is a sheet {name}"));
            }
        }
        Ok(name)
    }

    /// `load`.
    fn load(&mut self, rest: &str) -> Result<(), String> {
        let name = self.take_sheet(rest)?;
        self.load_first(name, self.sheet.len())
    }

    /// `cuts`.
    fn cuts(&mut self, rest: &str) -> Result<(), String> {
        let name = self.take_sheet(rest)?;
        for length in 0..=self.sheet.len() {
            self.load_first(&format!("first {length} bytes of {name}"), length)?;
        }
        Ok(())
    }

    /// Reads the first bytes of the sheet, with an empty plan file and marks for every sheet, which are to be left alone.
    fn load_first(&mut self, name: &str, length: usize) -> Result<(), String> {
        let mut tables = self.tables();
        tables.marks = vec![MARK; MAX_SITES];
        let mut lent = self.lent;
        lent.marks = MAX_SITES;
        let sheet = &self.sheet[..length];
        let answer = self.planner.read(sheet, b"", &mut tables, lent);
        let mut printed = match answer {
            Answer::Refused { number: 14, .. } => "loaded\n".to_string(),
            _ => text::answer("accepted", answer),
        };
        printed += &text::sheet_tables(&tables);
        if tables.marks.iter().any(|&mark| mark != MARK) {
            printed += "  marks written\n";
        }
        self.print(name, &printed)
    }

    /// `read`.
    fn read(&mut self, rest: &str) -> Result<(), String> {
        let (name, notation) = named_text(rest)?;
        let file = bytes(notation)?;
        let mut tables = self.tables();
        let answer = match self.reader {
            Reader::Reading => self
                .planner
                .read(&self.sheet, &file, &mut tables, self.lent),
            Reader::Sharing => {
                sharing::read(self.planner, &self.sheet, &file, &mut tables, self.lent)?
            }
        };
        let printed = text::answer("accepted", answer) + &text::reader_tables(&tables);
        self.print(name, &printed)
    }

    /// `share`.
    fn share(&mut self, rest: &str) -> Result<(), String> {
        let (name, notation) = named_text(rest)?;
        let file = bytes(notation)?;
        let mut tables = self.tables();
        let sharing = self
            .planner
            .share(&self.sheet, &file, &mut tables, self.lent);
        let printed = text::sharing(sharing) + &text::sharing_tables(&tables);
        self.print(name, &printed)
    }

    /// `plan`, which leaves its cells and landing entries for the questions.
    fn plan(&mut self, rest: &str) -> Result<(), String> {
        let name = self.take_sheet(rest)?;
        let mut tables = self.tables();
        let answer = self.planner.plan(&self.sheet, &mut tables, self.lent);
        let printed = text::answer("planned", answer) + &text::engine_tables(&tables);
        self.cells = tables.cells;
        self.landings = tables.landings;
        self.print(name, &printed)
    }

    /// Tables of values that no sheet and no plan has. The landing entries have every bit, a sender's too.
    fn tables(&self) -> Tables {
        Tables {
            starts: vec![60_001; self.lengths.starts],
            ends: vec![60_002; self.lengths.ends],
            prices: vec![4_000_000_003; self.lengths.prices],
            landings: vec![65_535; self.lengths.landings],
            by_end: vec![60_003; self.lengths.by_end],
            places: vec![60_004; self.lengths.places],
            cells: vec![self.fill; self.lengths.cells],
            marks: vec![MARK; self.lengths.marks],
            plan: vec![238; self.lengths.plan],
            shares: vec![4_000_000_007; self.lengths.shares],
        }
    }

    /// `cell`.
    fn cell(&mut self, rest: &str) -> Result<(), String> {
        let (name, [sites, stations, site, subset]) = named_numbers(rest)?;
        self.ask_cell(name, [sites, stations], site, subset)
    }

    /// `sender`.
    fn sender(&mut self, rest: &str) -> Result<(), String> {
        let (name, [sites, stations, subset]) = named_numbers(rest)?;
        self.ask_sender(name, [sites, stations], subset)
    }

    /// `every`.
    fn every(&mut self, rest: &str) -> Result<(), String> {
        let (name, [sites, stations]) = named_numbers(rest)?;
        for subset in 0..1 << stations {
            for site in 0..sites {
                self.ask_cell(name, [sites, stations], site, subset)?;
            }
            self.ask_sender(name, [sites, stations], subset)?;
        }
        Ok(())
    }

    /// Asks for the cell of a site and a subset.
    fn ask_cell(
        &mut self,
        name: &str,
        head: [u32; 2],
        site: u32,
        subset: u32,
    ) -> Result<(), String> {
        let name = format!("{name}, site {site}, subset {subset}");
        self.ask(&name, head, Question::Cell { site, subset })
    }

    /// Asks for the best sender of a subset.
    fn ask_sender(&mut self, name: &str, head: [u32; 2], subset: u32) -> Result<(), String> {
        let name = format!("{name}, best sender of subset {subset}");
        self.ask(&name, head, Question::BestSender { subset })
    }

    /// Asks about the cells and landing entries, as a cost table of so many sites and stations.
    fn ask(&mut self, name: &str, head: [u32; 2], question: Question) -> Result<(), String> {
        let [sites, stations] = head;
        let table = CostTable {
            cells: &self.cells,
            landings: &self.landings,
            sites,
            stations,
        };
        let enquiry = self.planner.ask(table, question);
        self.print(name, &text::enquiry(enquiry))
    }

    /// Adds a case to the output.
    fn print(&mut self, name: &str, text: &str) -> Result<(), String> {
        if !self.names.insert(name.to_string()) {
            return Err(format!("there is a case {name}"));
        }
        self.output += &format!("{name}: {text}");
        Ok(())
    }
}
