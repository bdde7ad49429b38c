// A plain reader of BLIF with .subckt, and the netlist that the passes see.
use crate::aq_base::{List, Memory};
use crate::circuit::{Answers, Word};
use crate::shim::*;
use std::collections::HashMap;

pub struct Plane(std::vec::Vec<u8>);
impl Plane {
    pub fn as_slice(&self) -> &[u8] {
        &self.0
    }
    pub fn len(&self) -> usize {
        self.0.len()
    }
}
pub struct Cube {
    pub plane: Plane,
}
pub struct Def {
    pub line: u64,
    pub inputs: List<u32>,
    pub on: bool,
    pub cubes: List<Cube>,
}
pub struct Netlist {
    inputs: u32,
    defs: List<Def>,
    outputs: List<u32>,
}

impl Netlist {
    pub fn known(&self) {}
    pub fn name_count(&self) -> u32 {
        self.inputs + self.defs.len() as u32
    }
    pub fn defs(&self) -> &List<Def> {
        &self.defs
    }
    pub fn outputs(&self) -> &List<u32> {
        &self.outputs
    }
}

impl Answers for Netlist {
    fn input_count(&self) -> u32 {
        self.inputs
    }
    fn output_count(&self) -> u32 {
        self.outputs.len() as u32
    }
    fn answer(&self, _: Global, _: &Word) -> Result<Word, Memory> {
        Err(Memory)
    }
}

#[derive(Default)]
struct Model {
    inputs: std::vec::Vec<String>,
    outputs: std::vec::Vec<String>,
    names: std::vec::Vec<(std::vec::Vec<String>, std::vec::Vec<(String, char)>)>,
    calls: std::vec::Vec<(String, std::vec::Vec<(String, String)>)>,
}

fn models(text: &str) -> (String, HashMap<String, Model>) {
    let mut lines: std::vec::Vec<String> = std::vec::Vec::new();
    let mut open = false;
    for line in text.lines() {
        let line = line.split('#').next().unwrap().trim_end();
        let (line, goes_on) = match line.strip_suffix('\\') {
            Some(line) => (line, true),
            None => (line, false),
        };
        if open {
            let last = lines.last_mut().unwrap();
            last.push(' ');
            last.push_str(line);
        } else {
            lines.push(line.to_string());
        }
        open = goes_on;
    }
    let mut all = HashMap::new();
    let mut first = String::new();
    let mut name = String::new();
    let mut model = Model::default();
    let mut any = false;
    for line in &lines {
        let words: std::vec::Vec<&str> = line.split_whitespace().collect();
        let Some(head) = words.first() else { continue };
        let rest = || words[1..].iter().map(|w| w.to_string());
        match *head {
            ".model" => {
                if any {
                    all.insert(std::mem::take(&mut name), std::mem::take(&mut model));
                }
                name = words.get(1).unwrap_or(&"").to_string();
                if !any {
                    first = name.clone();
                }
                any = true;
            }
            ".inputs" => model.inputs.extend(rest()),
            ".outputs" => model.outputs.extend(rest()),
            ".names" => model.names.push((rest().collect(), std::vec::Vec::new())),
            ".subckt" => {
                let pins = words[2..]
                    .iter()
                    .map(|w| w.split_once('=').unwrap())
                    .map(|(a, b)| (a.into(), b.into()));
                model.calls.push((words[1].to_string(), pins.collect()));
            }
            ".end" | ".exdc" => (),
            word if word.starts_with('.') => (),
            _ => {
                let rows = &mut model.names.last_mut().expect("row without .names").1;
                match words.len() {
                    1 => rows.push((String::new(), words[0].chars().next().unwrap())),
                    _ => rows.push((words[0].to_string(), words[1].chars().next().unwrap())),
                }
            }
        }
    }
    all.insert(name, model);
    (first, all)
}

type Flat = std::vec::Vec<(std::vec::Vec<String>, std::vec::Vec<(String, char)>)>;

fn expand(
    all: &HashMap<String, Model>,
    model: &Model,
    prefix: &str,
    outer: &HashMap<String, String>,
    flat: &mut Flat,
) {
    let named = |name: &String| {
        outer
            .get(name)
            .cloned()
            .unwrap_or_else(|| format!("{prefix}{name}"))
    };
    for (signals, rows) in &model.names {
        flat.push((signals.iter().map(named).collect(), rows.clone()));
    }
    for (number, (name, pins)) in model.calls.iter().enumerate() {
        let called = all.get(name).expect("unknown model");
        let inner = pins.iter().map(|(a, b)| (a.clone(), named(b))).collect();
        expand(all, called, &format!("{prefix}{number}/"), &inner, flat);
    }
}

pub fn read(text: &str) -> Netlist {
    let (first, all) = models(text);
    let top = &all[&first];
    let mut flat = Flat::new();
    let outer: HashMap<String, String> = HashMap::new();
    expand(&all, top, "", &outer, &mut flat);
    let mut number: HashMap<String, u32> = HashMap::new();
    for name in &top.inputs {
        let next = number.len() as u32;
        number.insert(name.clone(), next);
    }
    let inputs = number.len() as u32;
    for (signals, _) in &flat {
        let next = number.len() as u32;
        assert!(
            number.insert(signals.last().unwrap().clone(), next).is_none(),
            "defined twice: {:?}",
            signals.last()
        );
    }
    let find = |name: &String| *number.get(name).unwrap_or_else(|| panic!("undefined {name}"));
    let list = |names: &[String]| List::from_vec(Vec(names.iter().map(find).collect()));
    let mut defs = std::vec::Vec::new();
    for (signals, rows) in &flat {
        let reads = &signals[..signals.len() - 1];
        let cubes = rows
            .iter()
            .map(|(plane, _)| Cube {
                plane: Plane(plane.bytes().collect()),
            })
            .collect();
        defs.push(Def {
            line: 0,
            inputs: list(reads),
            on: rows.first().map_or(true, |row| row.1 == '1'),
            cubes: List::from_vec(Vec(cubes)),
        });
    }
    Netlist {
        inputs,
        defs: List::from_vec(Vec(defs)),
        outputs: list(&top.outputs),
    }
}
