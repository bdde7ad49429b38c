// The numbers of a library that plans use.
use crate::circuit::CellKind;

pub struct Library {
    wire: u64,
    pin: u64,
    height: u64,
    pitch: u64,
    columns: u64,
    capacity: u64,
    limit: u64,
    three: bool,
}

impl Library {
    pub fn read(text: &str, changes: &[(String, u64)]) -> Library {
        let mut all = std::collections::HashMap::new();
        let mut three = false;
        let mut top = true;
        for line in text.lines() {
            let line = line.split('#').next().unwrap().trim();
            if line.starts_with('[') {
                top = false;
                three |= line == "[split3]";
            }
            if let (true, Some((key, value))) = (top, line.split_once('=')) {
                if let Ok(value) = value.trim().replace('_', "").parse::<u64>() {
                    all.insert(key.trim().to_string(), value);
                }
            }
        }
        for (key, value) in changes {
            if key == "split3" {
                three = *value > 0;
            } else {
                all.insert(key.clone(), *value);
            }
        }
        let get = |key: &str| *all.get(key).unwrap_or_else(|| panic!("library without {key}"));
        Library {
            wire: get("wire"),
            pin: get("pin"),
            height: get("height"),
            pitch: get("pitch"),
            columns: get("columns"),
            capacity: get("capacity"),
            limit: get("limit"),
            three,
        }
    }
    pub fn known(&self) {}
    pub fn height(&self) -> u64 {
        self.height
    }
    pub fn pitch(&self) -> u64 {
        self.pitch
    }
    pub fn columns(&self) -> u64 {
        self.columns
    }
    pub fn capacity(&self) -> u64 {
        self.capacity
    }
    pub fn has_three(&self) -> bool {
        self.three
    }
    pub fn has(&self, kind: CellKind) -> bool {
        self.three || !matches!(kind, CellKind::Split3)
    }
    pub fn reach(&self) -> u64 {
        let fixed = (self.capacity + 1) * self.pitch + 2 * self.pin + 2 * self.wire;
        (self.limit.saturating_sub(fixed) / (self.columns * self.pitch)).min(self.capacity / 2)
    }
}
