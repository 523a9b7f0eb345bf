//! What passes between a log and a checker, as plain data, and how it is written down (paper 01,
//! What a call is given, and Response lines). Nothing here is checked: damaged data are written as they are.

pub type Digest = [u8; 32];

#[derive(Clone, Copy, Debug, PartialEq, Eq)]
pub enum Kind {
    Search,
    Monitor,
}

impl Kind {
    pub fn word(self) -> &'static str {
        match self {
            Kind::Search => "search",
            Kind::Monitor => "monitor",
        }
    }
}

/// Bytes in hex; no bytes are written as `-`.
pub fn hex(bytes: &[u8]) -> String {
    if bytes.is_empty() {
        return "-".to_string();
    }
    let digits = b"0123456789abcdef";
    let mut text = Vec::with_capacity(2 * bytes.len());
    for byte in bytes {
        text.push(digits[usize::from(byte >> 4)]);
        text.push(digits[usize::from(byte & 15)]);
    }
    String::from_utf8(text).expect("hex digits are ASCII")
}

// ---- the response

#[derive(Clone, Debug, PartialEq, Eq)]
pub struct Response {
    pub kind: Kind,
    pub identifier: Vec<u8>,
    pub label: Vec<u8>,
    pub size: u64,
    /// Only a search has one.
    pub target: Option<Target>,
    pub steps: Vec<Step>,
    pub entries: Vec<Entry>,
    pub nodes: Vec<Digest>,
}

#[derive(Clone, Debug, PartialEq, Eq)]
pub struct Target {
    pub version: u32,
    pub opening: Vec<u8>,
    pub value: Vec<u8>,
}

#[derive(Clone, Debug, PartialEq, Eq)]
pub struct Step {
    pub version: u32,
    pub commitment: Option<Digest>,
}

#[derive(Clone, Debug, PartialEq, Eq)]
pub struct Entry {
    pub position: u64,
    pub time: u64,
    pub prefix_root: Digest,
    pub lookups: Vec<Lookup>,
}

#[derive(Clone, Debug, PartialEq, Eq)]
pub struct Lookup {
    pub version: u32,
    pub result: LookupResult,
    /// From the root of the prefix tree down.
    pub siblings: Vec<Digest>,
}

#[derive(Clone, Debug, PartialEq, Eq)]
pub enum LookupResult {
    /// `in`: the path ends in the version's leaf.
    Inclusion,
    /// `no`: it ends in an empty place.
    EmptyPlace,
    /// `nl`: it ends in another version's leaf.
    OtherLeaf { output: Digest, commitment: Digest },
}

impl Response {
    pub fn text(&self) -> Vec<u8> {
        let mut lines = format!(
            "kt\t{}\t{}\t{}\nhead\t{}\n",
            self.kind.word(),
            hex(&self.identifier),
            hex(&self.label),
            self.size
        );
        if let Some(target) = &self.target {
            lines += &target.line();
        }
        for step in &self.steps {
            lines += &step.line();
        }
        for entry in &self.entries {
            lines += &entry.lines();
        }
        for node in &self.nodes {
            lines += &format!("node\t{}\n", hex(node));
        }
        lines += "end\n";
        lines.into_bytes()
    }
}

impl Target {
    pub fn line(&self) -> String {
        format!(
            "target\t{}\t{}\t{}\n",
            self.version,
            hex(&self.opening),
            hex(&self.value)
        )
    }
}

impl Step {
    pub fn line(&self) -> String {
        let commitment = self.commitment.as_ref().map_or(&[][..], |c| &c[..]);
        format!("step\t{}\t{}\n", self.version, hex(commitment))
    }
}

impl Entry {
    /// The entry and its lookups.
    pub fn lines(&self) -> String {
        let mut lines = format!(
            "entry\t{}\t{}\t{}\n",
            self.position,
            self.time,
            hex(&self.prefix_root)
        );
        for lookup in &self.lookups {
            lines += &lookup.line();
        }
        lines
    }
}

impl Lookup {
    pub fn line(&self) -> String {
        let siblings = hex(&self.siblings.concat());
        match &self.result {
            LookupResult::Inclusion => format!("in\t{}\t{siblings}\n", self.version),
            LookupResult::EmptyPlace => format!("no\t{}\t{siblings}\n", self.version),
            LookupResult::OtherLeaf { output, commitment } => format!(
                "nl\t{}\t{}\t{}\t{siblings}\n",
                self.version,
                hex(output),
                hex(commitment)
            ),
        }
    }
}

// ---- the settings (001, 10.2)

#[derive(Clone, Debug, PartialEq, Eq)]
pub struct Settings {
    pub suite: u16,
    pub mode: u8,
    pub signature_key: Vec<u8>,
    pub vrf_key: Vec<u8>,
    pub max_ahead: u64,
    pub max_behind: u64,
    pub monitoring_window: u64,
    pub maximum_lifetime: Option<u64>,
}

impl Settings {
    pub fn bytes(&self) -> Vec<u8> {
        let mut bytes = self.suite.to_be_bytes().to_vec();
        bytes.push(self.mode);
        for key in [&self.signature_key, &self.vrf_key] {
            bytes.extend((key.len() as u16).to_be_bytes());
            bytes.extend(key);
        }
        for number in [self.max_ahead, self.max_behind, self.monitoring_window] {
            bytes.extend(number.to_be_bytes());
        }
        match self.maximum_lifetime {
            None => bytes.push(0),
            Some(lifetime) => {
                bytes.push(1);
                bytes.extend(lifetime.to_be_bytes());
            }
        }
        bytes
    }
}

// ---- the state

#[derive(Clone, Debug, PartialEq, Eq)]
pub struct State {
    pub label: Vec<u8>,
    pub size: u64,
    pub time: u64,
    /// The values of the full subtrees, left to right.
    pub values: Vec<Digest>,
    /// Position and version, positions rising.
    pub pairs: Vec<(u64, u32)>,
}

impl State {
    pub fn new(label: &[u8]) -> State {
        State {
            label: label.to_vec(),
            size: 0,
            time: 0,
            values: Vec::new(),
            pairs: Vec::new(),
        }
    }

    pub fn text(&self) -> Vec<u8> {
        let mut lines = format!("size\t{}\t{}\t{}\n", self.size, self.time, hex(&self.label));
        for value in &self.values {
            lines += &format!("keep\t{}\n", hex(value));
        }
        for (position, version) in &self.pairs {
            lines += &format!("pair\t{position}\t{version}\n");
        }
        lines.into_bytes()
    }
}

// ---- one call

/// A call with an answer that must be accepted, and what acceptance leaves.
#[derive(Clone, Debug)]
pub struct Exchange {
    pub kind: Kind,
    pub identifier: Vec<u8>,
    pub clock: u64,
    pub response: Response,
    pub settings: Settings,
    pub state: State,
    /// Versions and their VRF outputs, versions rising.
    pub sheet: Vec<(u32, Digest)>,
    /// The root of the log tree of the response's size.
    pub root: Digest,
    pub new_state: State,
}

impl Exchange {
    pub fn sheet_bytes(&self) -> Vec<u8> {
        let mut bytes = Vec::new();
        for (version, output) in &self.sheet {
            bytes.extend(version.to_be_bytes());
            bytes.extend(output);
        }
        bytes
    }

    /// TreeHeadTBS (001, 10.2).
    pub fn signed_text(&self) -> Vec<u8> {
        let mut bytes = self.settings.bytes();
        bytes.extend(self.response.size.to_be_bytes());
        bytes.extend(self.root);
        bytes
    }
}
