//! Replays a schedule of level core, as `zen replay --level core` does: reads the schedule from standard input and writes
//! its trace to standard output, byte by byte the same. docs/formats.md has the two texts, docs/protocol.md the rules.
//!
//! This is plain Rust, of which nothing is proved: what `zen` costs is compared with what this program costs. Build it by
//!
//!     rustc -O -C target-cpu=x86-64 main.rs
//!
//! It does the work that `zen` does: each line is read and checked, the whole schedule and all messages that were sent are
//! held, and each node keeps its record in a journal in memory, each body with its digest, from which a restart reads it
//! back. Less than in `zen`:
//!
//! - a line is echoed as it was read, since it has one spelling, and a state that is accepted is shared and not copied;
//! - a line `fuse` or `fail` is checked, and then refused as `not in this program`;
//! - so no crash comes inside an act, and a body and its gate are appended to the journal at once;
//! - the journal is one file that grows and grows, where `zen` begins another one after 65,536 bytes;
//! - where memory runs out the program aborts.

use std::collections::BTreeMap;
use std::io::{self, Read, Write};
use std::process::ExitCode;
use std::rc::Rc;
use std::str;

/// How many bytes a schedule has at most, how many lines, and how many bytes a line has without its line feed.
const MAX_BYTES: usize = 16_777_216;
const MAX_LINES: usize = 1_000_000;
const MAX_LINE_BYTES: usize = 16_384;

/// How many nodes a list has at most, and how many bytes an id.
const MAX_NODES: usize = 64;
const MAX_ID_BYTES: usize = 32;

/// The greatest number of a message or of a device call in a schedule.
const MAX_ORDINAL: u64 = u32::MAX as u64;

/// The greatest term and version that a node takes.
const MAX_TERM_OR_VERSION: u64 = 1 << 62;

/// How many bytes of the trace are held back before they are written.
const PIECE_BYTES: usize = 65_536;

// The exit status where the program fails.
const BAD_SCHEDULE: u8 = 3;
const INPUT_FAILED: u8 = 5;
const OUTPUT_FAILED: u8 = 6;

fn main() -> ExitCode {
    match run() {
        Ok(()) => ExitCode::SUCCESS,
        Err(status) => ExitCode::from(status),
    }
}

fn run() -> Result<(), u8> {
    let mut input = Vec::new();
    let mut limited = io::stdin().lock().take(MAX_BYTES as u64 + 1);
    limited.read_to_end(&mut input).map_err(|_| INPUT_FAILED)?;
    match read_schedule(&input) {
        Ok(schedule) => replay(&schedule, &mut io::stdout().lock()).map_err(|_| OUTPUT_FAILED),
        Err((line, why)) => {
            let text = format!("zen: bad schedule at line {}: {}\n", line, why);
            let written = io::stdout().write_all(text.as_bytes());
            Err(written.map_or(OUTPUT_FAILED, |()| BAD_SCHEDULE))
        }
    }
}

// Nodes and configurations --------------------------------------------------------------------------------------------

/// A listed node: its place among the listed ids, which ascend.
#[derive(Clone, Copy, Default, PartialEq, Eq)]
struct Node(u8);

/// The ids of the listed nodes, ascending.
#[derive(Default)]
struct Ids<'a> {
    ids: Vec<&'a str>,
}

impl<'a> Ids<'a> {
    fn id(&self, node: Node) -> &'a str {
        self.ids[usize::from(node.0)]
    }

    fn find(&self, id: &[u8]) -> Option<Node> {
        let place = self.ids.iter().position(|listed| listed.as_bytes() == id)?;
        Some(Node(place as u8))
    }

    fn nodes(&self) -> impl Iterator<Item = Node> {
        (0..self.ids.len() as u8).map(Node)
    }
}

/// A set of listed nodes, a bit for each: a voting configuration, or votes.
#[derive(Clone, Copy, Default, PartialEq, Eq)]
struct NodeSet(u64);

impl NodeSet {
    fn is_empty(self) -> bool {
        self.0 == 0
    }

    fn len(self) -> usize {
        self.0.count_ones() as usize
    }

    fn insert(&mut self, node: Node) {
        self.0 |= 1 << node.0;
    }

    fn last(self) -> Option<Node> {
        let place = self.0.checked_ilog2()?;
        Some(Node(place as u8))
    }

    /// The nodes in ascending order.
    fn nodes(self) -> impl Iterator<Item = Node> {
        let mut rest = self.0;
        std::iter::from_fn(move || {
            if rest == 0 {
                return None;
            }
            let place = rest.trailing_zeros();
            rest &= rest - 1;
            Some(Node(place as u8))
        })
    }

    /// Whether more than half of this configuration's nodes are among the votes.
    fn has_quorum(self, votes: NodeSet) -> bool {
        2 * NodeSet(self.0 & votes.0).len() > self.len()
    }
}

// The schedule --------------------------------------------------------------------------------------------------------

/// A schedule: the listed nodes, the initial configuration, and the lines after the header.
#[derive(Default)]
struct Schedule<'a> {
    ids: Ids<'a>,
    initial: NodeSet,
    lines: Vec<Line<'a>>,
}

/// A line as it was written, and what happens at it.
struct Line<'a> {
    text: &'a [u8],
    event: Event<'a>,
}

enum Event<'a> {
    Boot { node: Node },
    StartJoin { node: Node, candidate: Node, term: u64 },
    Value { node: Node, version: u64, text: &'a str, config: NodeSet },
    Deliver { node: Node, ordinal: usize },
    // What a crash between two acts leaves is the same in each mode: all is synced.
    Crash { node: Node },
    Restart { node: Node },
}

/// Why a line is bad, as docs/formats.md names it.
type Why = &'static str;

/// The schedule that a text is, or the number of its first bad line, counted from 1, and why that is bad.
fn read_schedule(text: &[u8]) -> Result<Schedule<'_>, (usize, Why)> {
    let mut schedule = Schedule::default();
    let mut number = 0;
    let mut end = 0;
    for line in text.split_inclusive(|byte| *byte == b'\n') {
        number += 1;
        end += line.len();
        schedule.add_line(number, end, line).map_err(|why| (number, why))?;
    }
    match number {
        1 => Err((2, "Header")),
        _ => Ok(schedule),
    }
}

impl<'a> Schedule<'a> {
    /// Adds the line of this number, which ends at `end` in the text.
    fn add_line(&mut self, number: usize, end: usize, line: &'a [u8]) -> Result<(), Why> {
        check(end <= MAX_BYTES, "TooBig")?;
        check(number <= MAX_LINES, "TooMany")?;
        let text = line.strip_suffix(b"\n").ok_or("NoNewline")?;
        check(text.len() <= MAX_LINE_BYTES, "TooLong")?;
        match number {
            1 => self.ids = read_nodes(text).ok_or("Header")?,
            2 => self.initial = read_initial(&self.ids, text).ok_or("Header")?,
            _ => self.lines.push(Line { text, event: read_event(&self.ids, text)? }),
        }
        Ok(())
    }
}

/// Ok where this holds, and else the error.
fn check<E>(holds: bool, otherwise: E) -> Result<(), E> {
    holds.then_some(()).ok_or(otherwise)
}

/// The header's first line: 1 to 64 ids in ascending order.
fn read_nodes(line: &[u8]) -> Option<Ids<'_>> {
    let list = line.strip_prefix(b"nodes ")?;
    let mut ids: Vec<&str> = Vec::new();
    for word in list.split(|byte| *byte == b',') {
        let id = read_id(word)?;
        if ids.len() == MAX_NODES || ids.last().map_or(false, |last| *last >= id) {
            return None;
        }
        ids.push(id);
    }
    Some(Ids { ids })
}

/// The header's second line: the nodes of the initial configuration, which is not empty.
fn read_initial(ids: &Ids, line: &[u8]) -> Option<NodeSet> {
    let initial = read_config(ids, line.strip_prefix(b"initial ")?)?;
    Some(initial).filter(|initial| !initial.is_empty())
}

fn read_event<'a>(ids: &Ids, line: &'a [u8]) -> Result<Event<'a>, Why> {
    let mut words = line.split(|byte| *byte == b' ');
    let verb = words.next().unwrap_or_default();
    let node_at = |word| ids.find(word).ok_or("Id");
    match verb {
        b"boot" => {
            let [node] = exactly(words)?;
            Ok(Event::Boot { node: node_at(node)? })
        }
        b"startjoin" => {
            let [node, candidate, term] = exactly(words)?;
            Ok(Event::StartJoin {
                node: node_at(node)?,
                candidate: node_at(candidate)?,
                term: read_number(term, 0, u64::MAX)?,
            })
        }
        b"value" => {
            let [node, version, text, config] = exactly(words)?;
            Ok(Event::Value {
                node: node_at(node)?,
                version: read_number(version, 0, u64::MAX)?,
                text: read_id(text).ok_or("Text")?,
                config: read_config(ids, config).ok_or("List")?,
            })
        }
        b"deliver" => {
            let [node, ordinal] = exactly(words)?;
            Ok(Event::Deliver { node: node_at(node)?, ordinal: read_number(ordinal, 1, MAX_ORDINAL)? as usize })
        }
        b"crash" => {
            let [node, mode] = exactly(words)?;
            let node = node_at(node)?;
            check_mode(mode).map(|()| Event::Crash { node })
        }
        b"restart" => {
            let [node] = exactly(words)?;
            Ok(Event::Restart { node: node_at(node)? })
        }
        b"fuse" => {
            let [node, call, mode] = exactly(words)?;
            node_at(node)?;
            read_number(call, 1, MAX_ORDINAL)?;
            check_mode(mode).and(Err("not in this program"))
        }
        b"fail" => {
            let [node, call] = exactly(words)?;
            node_at(node)?;
            read_number(call, 1, MAX_ORDINAL).and(Err("not in this program"))
        }
        _ => Err("Verb"),
    }
}

/// The words that are left, which are as many as the verb takes.
fn exactly<'a, const N: usize>(mut words: impl Iterator<Item = &'a [u8]>) -> Result<[&'a [u8]; N], Why> {
    let mut taken: [&[u8]; N] = [&[]; N];
    for word in &mut taken {
        *word = words.next().ok_or("Arity")?;
    }
    check(words.next().is_none(), "Arity").map(|()| taken)
}

/// An id, or the text of a setting, which has the same form: 1 to 32 bytes of `a` to `z`, `0` to `9` and `-`.
fn read_id(word: &[u8]) -> Option<&str> {
    let is_of_ids = |byte: &u8| matches!(byte, b'a'..=b'z' | b'0'..=b'9' | b'-');
    if word.is_empty() || word.len() > MAX_ID_BYTES || !word.iter().all(is_of_ids) {
        return None;
    }
    str::from_utf8(word).ok()
}

/// Listed nodes in ascending order, or `_` for none.
fn read_config(ids: &Ids, word: &[u8]) -> Option<NodeSet> {
    let mut config = NodeSet::default();
    if word == b"_" {
        return Some(config);
    }
    for id in word.split(|byte| *byte == b',') {
        let node = ids.find(id)?;
        if config.last().map_or(false, |last| last.0 >= node.0) {
            return None;
        }
        config.insert(node);
    }
    Some(config)
}

/// A decimal number without leading zeros, from `low` to `high`.
fn read_number(word: &[u8], low: u64, high: u64) -> Result<u64, Why> {
    check(word == b"0" || !word.starts_with(b"0"), "Number")?;
    check(!word.is_empty() && word.iter().all(u8::is_ascii_digit), "Number")?;
    let mut number: u64 = 0;
    for digit in word {
        let tens = number.checked_mul(10).ok_or("Number")?;
        number = tens.checked_add(u64::from(digit - b'0')).ok_or("Number")?;
    }
    check(low <= number && number <= high, "Number").map(|()| number)
}

/// Whether a word says what a crash leaves: `none`, `all`, or `torn:` and two digits of hexadecimal.
fn check_mode(word: &[u8]) -> Result<(), Why> {
    let is_digit = |byte: &u8| matches!(byte, b'0'..=b'9' | b'a'..=b'f');
    match word {
        b"none" | b"all" => Ok(()),
        [b't', b'o', b'r', b'n', b':', high, low] if is_digit(high) && is_digit(low) => Ok(()),
        _ => Err("Mode"),
    }
}

// Cluster states and messages -----------------------------------------------------------------------------------------

/// What the nodes agree on.
#[derive(Default)]
struct ClusterValue {
    master: Option<Node>,
    members: NodeSet,
    exclusions: NodeSet,
    settings: BTreeMap<String, String>,
}

/// A term and a version.
#[derive(Clone, Copy, Default)]
struct StateId {
    term: u64,
    version: u64,
}

/// `parent` is the id of the state that its publisher had accepted, and `committed` the committed configuration as the
/// publisher knew it. The default is the empty state 0/0.
#[derive(Default)]
struct ClusterState {
    id: StateId,
    parent: Option<StateId>,
    config: NodeSet,
    committed: NodeSet,
    value: Rc<ClusterValue>,
}

/// A message. A publish request and a commit have no target: they may be handed to any node.
#[derive(Clone)]
struct Message {
    source: Node,
    target: Option<Node>,
    body: MessageBody,
}

#[derive(Clone)]
enum MessageBody {
    Join { term: u64, last_accepted: StateId },
    PublishRequest(Rc<ClusterState>),
    PublishResponse(StateId),
    ApplyCommit(StateId),
}

impl MessageBody {
    fn name(&self) -> &'static str {
        match self {
            MessageBody::Join { .. } => "join",
            MessageBody::PublishRequest(_) => "publish",
            MessageBody::PublishResponse(_) => "response",
            MessageBody::ApplyCommit(_) => "commit",
        }
    }
}

// The journal ---------------------------------------------------------------------------------------------------------

const JOURNAL_HEADER: &[u8] = b"ZENJRNL1";
const CLOSED_GATE: u8 = 0;
const OPEN_GATE: u8 = 1;

// The first byte of a body: which change of the record it is.
const TERM_BODY: u8 = 0x81;
const STATE_BODY: u8 = 0x82;
const COMMIT_BODY: u8 = 0x83;

/// How many bytes the digest has, with which a body ends.
const DIGEST_BYTES: usize = 32;

/// What a node keeps durably: its record.
#[derive(Default)]
struct PersistedState {
    current_term: u64,
    last_accepted: Rc<ClusterState>,
    last_committed_config: NodeSet,
}

/// A node's journal: a header, and a body for each change of the record. Before each body stand an open gate and the
/// body's length, and after the last one stands a closed gate.
struct Journal<'a> {
    ids: &'a Ids<'a>,
    bytes: Vec<u8>,
}

impl<'a> Journal<'a> {
    fn new(ids: &'a Ids<'a>) -> Self {
        let mut bytes = JOURNAL_HEADER.to_vec();
        bytes.push(CLOSED_GATE);
        Journal { ids, bytes }
    }

    /// Appends a body: its first byte, the fields after it, and the digest of both.
    fn append(&mut self, kind: u8, put_fields: impl FnOnce(&Ids, &mut Vec<u8>)) {
        let gate = self.bytes.len() - 1;
        self.bytes.extend_from_slice(&[0; 4]);
        self.bytes.push(kind);
        put_fields(self.ids, &mut self.bytes);
        let digest = sha256(&self.bytes[gate + 5..]);
        self.bytes.extend_from_slice(&digest);
        let length = (self.bytes.len() - gate - 5) as u32;
        self.bytes[gate + 1..gate + 5].copy_from_slice(&length.to_be_bytes());
        self.bytes.push(CLOSED_GATE);
        self.bytes[gate] = OPEN_GATE;
    }

    /// The record after all changes of the journal, from the empty one on. `None` where this is no journal.
    fn read(&self) -> Option<PersistedState> {
        let mut record = PersistedState::default();
        let mut bodies = Fields { ids: self.ids, rest: self.bytes.strip_prefix(JOURNAL_HEADER)? };
        while bodies.byte()? == OPEN_GATE {
            let length = bodies.u32()? as usize;
            let guarded = bodies.take(length.checked_sub(DIGEST_BYTES)?)?;
            check(bodies.take(DIGEST_BYTES)? == sha256(guarded), ()).ok()?;
            let mut fields = Fields { ids: self.ids, rest: guarded };
            match fields.byte()? {
                TERM_BODY => record.current_term = fields.u64()?,
                STATE_BODY => {
                    record.last_accepted = Rc::new(fields.state()?);
                    record.last_committed_config = record.last_accepted.committed;
                }
                COMMIT_BODY => record.last_committed_config = record.last_accepted.config,
                _ => return None,
            }
        }
        Some(record)
    }
}

fn put_u64(out: &mut Vec<u8>, number: u64) {
    out.extend_from_slice(&number.to_be_bytes());
}

fn put_id(ids: &Ids, out: &mut Vec<u8>, node: Node) {
    let id = ids.id(node);
    out.push(id.len() as u8);
    out.extend_from_slice(id.as_bytes());
}

fn put_nodes(ids: &Ids, out: &mut Vec<u8>, nodes: NodeSet) {
    out.push(nodes.len() as u8);
    for node in nodes.nodes() {
        put_id(ids, out, node);
    }
}

fn put_state_id(out: &mut Vec<u8>, id: StateId) {
    put_u64(out, id.term);
    put_u64(out, id.version);
}

fn put_text(out: &mut Vec<u8>, text: &str) {
    out.extend_from_slice(&(text.len() as u16).to_be_bytes());
    out.extend_from_slice(text.as_bytes());
}

fn put_state(ids: &Ids, out: &mut Vec<u8>, state: &ClusterState) {
    put_state_id(out, state.id);
    out.push(u8::from(state.parent.is_some()));
    if let Some(parent) = state.parent {
        put_state_id(out, parent);
    }
    put_nodes(ids, out, state.config);
    put_nodes(ids, out, state.committed);
    let value = &state.value;
    out.push(u8::from(value.master.is_some()));
    if let Some(master) = value.master {
        put_id(ids, out, master);
    }
    put_nodes(ids, out, value.members);
    put_nodes(ids, out, value.exclusions);
    out.extend_from_slice(&(value.settings.len() as u16).to_be_bytes());
    for (key, setting) in &value.settings {
        put_text(out, key);
        put_text(out, setting);
    }
}

/// Reads what the functions above put. `None` where the bytes are too few or no such field.
struct Fields<'a> {
    ids: &'a Ids<'a>,
    rest: &'a [u8],
}

impl<'a> Fields<'a> {
    fn take(&mut self, count: usize) -> Option<&'a [u8]> {
        let (taken, rest) = self.rest.split_at_checked(count)?;
        self.rest = rest;
        Some(taken)
    }

    fn byte(&mut self) -> Option<u8> {
        Some(self.take(1)?[0])
    }

    fn u16(&mut self) -> Option<u16> {
        Some(u16::from_be_bytes([self.byte()?, self.byte()?]))
    }

    fn u32(&mut self) -> Option<u32> {
        let bytes = self.take(4)?;
        Some(bytes.iter().fold(0, |number, byte| number << 8 | u32::from(*byte)))
    }

    fn u64(&mut self) -> Option<u64> {
        let bytes = self.take(8)?;
        Some(bytes.iter().fold(0, |number, byte| number << 8 | u64::from(*byte)))
    }

    fn state_id(&mut self) -> Option<StateId> {
        Some(StateId { term: self.u64()?, version: self.u64()? })
    }

    fn node(&mut self) -> Option<Node> {
        let length = self.byte()?;
        self.ids.find(self.take(length.into())?)
    }

    fn nodes(&mut self) -> Option<NodeSet> {
        let mut nodes = NodeSet::default();
        for _ in 0..self.byte()? {
            nodes.insert(self.node()?);
        }
        Some(nodes)
    }

    fn text(&mut self) -> Option<String> {
        let length = self.u16()?;
        str::from_utf8(self.take(length.into())?).map(str::to_owned).ok()
    }

    fn state(&mut self) -> Option<ClusterState> {
        let id = self.state_id()?;
        let parent = if self.byte()? == 1 { Some(self.state_id()?) } else { None };
        let (config, committed) = (self.nodes()?, self.nodes()?);
        let master = if self.byte()? == 1 { Some(self.node()?) } else { None };
        let (members, exclusions) = (self.nodes()?, self.nodes()?);
        let mut settings = BTreeMap::new();
        for _ in 0..self.u16()? {
            settings.insert(self.text()?, self.text()?);
        }
        let value = Rc::new(ClusterValue { master, members, exclusions, settings });
        Some(ClusterState { id, parent, config, committed, value })
    }
}

// SHA-256 -------------------------------------------------------------------------------------------------------------

/// The words that a digest begins with, and those of the rounds: bits of the roots of primes, as FIPS 180-4 lists them.
const FIRST_WORDS: [u32; 8] =
    [0x6a09e667, 0xbb67ae85, 0x3c6ef372, 0xa54ff53a, 0x510e527f, 0x9b05688c, 0x1f83d9ab, 0x5be0cd19];
const ROUND_WORDS: [u32; 64] = [
    0x428a2f98, 0x71374491, 0xb5c0fbcf, 0xe9b5dba5, 0x3956c25b, 0x59f111f1, 0x923f82a4, 0xab1c5ed5,
    0xd807aa98, 0x12835b01, 0x243185be, 0x550c7dc3, 0x72be5d74, 0x80deb1fe, 0x9bdc06a7, 0xc19bf174,
    0xe49b69c1, 0xefbe4786, 0x0fc19dc6, 0x240ca1cc, 0x2de92c6f, 0x4a7484aa, 0x5cb0a9dc, 0x76f988da,
    0x983e5152, 0xa831c66d, 0xb00327c8, 0xbf597fc7, 0xc6e00bf3, 0xd5a79147, 0x06ca6351, 0x14292967,
    0x27b70a85, 0x2e1b2138, 0x4d2c6dfc, 0x53380d13, 0x650a7354, 0x766a0abb, 0x81c2c92e, 0x92722c85,
    0xa2bfe8a1, 0xa81a664b, 0xc24b8b70, 0xc76c51a3, 0xd192e819, 0xd6990624, 0xf40e3585, 0x106aa070,
    0x19a4c116, 0x1e376c08, 0x2748774c, 0x34b0bcb5, 0x391c0cb3, 0x4ed8aa4a, 0x5b9cca4f, 0x682e6ff3,
    0x748f82ee, 0x78a5636f, 0x84c87814, 0x8cc70208, 0x90befffa, 0xa4506ceb, 0xbef9a3f7, 0xc67178f2,
];

const BLOCK_BYTES: usize = 64;

/// The SHA-256 of these bytes.
fn sha256(bytes: &[u8]) -> [u8; DIGEST_BYTES] {
    let mut words = FIRST_WORDS;
    let mut blocks = bytes.chunks_exact(BLOCK_BYTES);
    for block in &mut blocks {
        compress(&mut words, block);
    }
    // What is left, a bit, zeros, and the count of bits, in one block or two.
    let rest = blocks.remainder();
    let mut last = [0; 2 * BLOCK_BYTES];
    last[..rest.len()].copy_from_slice(rest);
    last[rest.len()] = 0x80;
    let end = if rest.len() + 9 <= BLOCK_BYTES { BLOCK_BYTES } else { 2 * BLOCK_BYTES };
    last[end - 8..end].copy_from_slice(&(8 * bytes.len() as u64).to_be_bytes());
    for block in last[..end].chunks_exact(BLOCK_BYTES) {
        compress(&mut words, block);
    }
    let mut digest = [0; DIGEST_BYTES];
    for (place, word) in digest.chunks_exact_mut(4).zip(words) {
        place.copy_from_slice(&word.to_be_bytes());
    }
    digest
}

/// Takes a block into the words of a digest.
fn compress(words: &mut [u32; 8], block: &[u8]) {
    let mut schedule = [0; 64];
    for (word, bytes) in schedule.iter_mut().zip(block.chunks_exact(4)) {
        *word = u32::from_be_bytes([bytes[0], bytes[1], bytes[2], bytes[3]]);
    }
    for at in 16..64 {
        let (early, late) = (schedule[at - 15], schedule[at - 2]);
        let early = early.rotate_right(7) ^ early.rotate_right(18) ^ early >> 3;
        let late = late.rotate_right(17) ^ late.rotate_right(19) ^ late >> 10;
        schedule[at] = schedule[at - 16].wrapping_add(early).wrapping_add(schedule[at - 7]).wrapping_add(late);
    }
    let [mut a, mut b, mut c, mut d, mut e, mut f, mut g, mut h] = *words;
    for (round, word) in ROUND_WORDS.iter().zip(schedule) {
        let mixed = e.rotate_right(6) ^ e.rotate_right(11) ^ e.rotate_right(25);
        let chosen = e & f ^ !e & g;
        let first = h.wrapping_add(mixed).wrapping_add(chosen).wrapping_add(*round).wrapping_add(word);
        let mixed = a.rotate_right(2) ^ a.rotate_right(13) ^ a.rotate_right(22);
        let most = a & b ^ a & c ^ b & c;
        let second = mixed.wrapping_add(most);
        (h, g, f, e, d, c, b, a) = (g, f, e, d.wrapping_add(first), c, b, a, first.wrapping_add(second));
    }
    for (word, added) in words.iter_mut().zip([a, b, c, d, e, f, g, h]) {
        *word = word.wrapping_add(added);
    }
}

// The rules of one node -----------------------------------------------------------------------------------------------

/// Why an act is refused: the name of the cause, with the values that were compared, the node's own first.
enum Cause {
    Plain(&'static str),
    OfNode(&'static str, Node),
    OfNumber(&'static str, u64),
    OfNumbers(&'static str, u64, u64),
}

/// What an act has brought about that was taken.
#[derive(Default)]
struct Effects {
    /// The term whose election the node has won.
    won: Option<u64>,
    /// The state that is committed.
    committed: Option<Rc<ClusterState>>,
    sends: Option<Message>,
}

impl Effects {
    fn sends(source: Node, target: Option<Node>, body: MessageBody) -> Self {
        Effects { sends: Some(Message { source, target, body }), ..Effects::default() }
    }
}

/// What a node is asked for: one of the seven acts, four of which take a message.
enum Act {
    SetInitialState { config: NodeSet },
    StartJoin { candidate: Node, term: u64 },
    ClientValue { version: u64, config: NodeSet, value: Rc<ClusterValue> },
    Take(Message),
}

/// What a node holds that is up. A restart has the record alone, from the journal.
#[derive(Default)]
struct CoordinationState {
    me: Node,
    persisted: PersistedState,
    started_join_since_last_reboot: bool,
    election_won: bool,
    join_votes: NodeSet,
    last_published: Option<Rc<ClusterState>>,
    last_published_version: u64,
    last_published_config: NodeSet,
    publish_votes: NodeSet,
}

/// What an act did, or the first cause that refuses it: then it has changed nothing.
type Answer = Result<Effects, Cause>;

impl CoordinationState {
    fn handle(&mut self, journal: &mut Journal, act: &Act) -> Answer {
        match act {
            Act::SetInitialState { config } => self.set_initial_state(journal, *config),
            Act::StartJoin { candidate, term } => self.handle_start_join(journal, *candidate, *term),
            Act::ClientValue { version, config, value } => self.handle_client_value(*version, *config, value),
            Act::Take(message) => self.handle_message(journal, message),
        }
    }

    fn handle_message(&mut self, journal: &mut Journal, message: &Message) -> Answer {
        if let Some(target) = message.target {
            check(target == self.me, Cause::OfNode("NotForMe", target))?;
        }
        match &message.body {
            MessageBody::Join { term, last_accepted } => self.handle_join(message.source, *term, *last_accepted),
            MessageBody::PublishRequest(state) => self.handle_publish_request(journal, message.source, state),
            MessageBody::PublishResponse(id) => self.handle_publish_response(message.source, *id),
            MessageBody::ApplyCommit(id) => self.handle_commit(journal, *id),
        }
    }

    fn set_initial_state(&mut self, journal: &mut Journal, config: NodeSet) -> Answer {
        check(self.persisted.last_accepted.config.is_empty(), Cause::Plain("AlreadySet"))?;
        check(!config.is_empty(), Cause::Plain("EmptyConfig"))?;
        let state = ClusterState { config, committed: config, ..ClusterState::default() };
        self.accept(journal, &Rc::new(state));
        Ok(Effects::default())
    }

    fn handle_start_join(&mut self, journal: &mut Journal, candidate: Node, term: u64) -> Answer {
        let current = self.persisted.current_term;
        check(term > current, Cause::OfNumbers("TermNotGreater", current, term))?;
        check(term <= MAX_TERM_OR_VERSION, Cause::OfNumber("TermTooLarge", term))?;
        journal.append(TERM_BODY, |_, out| put_u64(out, term));
        self.persisted.current_term = term;
        let accepted = &self.persisted.last_accepted;
        self.started_join_since_last_reboot = true;
        self.election_won = false;
        self.join_votes = NodeSet::default();
        self.last_published_version = 0;
        self.last_published_config = accepted.config;
        self.publish_votes = NodeSet::default();
        Ok(Effects::sends(self.me, Some(candidate), MessageBody::Join { term, last_accepted: accepted.id }))
    }

    /// Counts a join. The node wins the election once its votes are an election quorum.
    fn handle_join(&mut self, source: Node, term: u64, last_accepted: StateId) -> Answer {
        let own = &self.persisted.last_accepted;
        self.check_term(term)?;
        check(self.started_join_since_last_reboot, Cause::Plain("NotStarted"))?;
        check(last_accepted.term <= own.id.term, Cause::OfNumbers("FresherTerm", own.id.term, last_accepted.term))?;
        check(
            last_accepted.term < own.id.term || last_accepted.version <= own.id.version,
            Cause::OfNumbers("FresherVersion", own.id.version, last_accepted.version),
        )?;
        check(!own.config.is_empty(), Cause::Plain("NoConfig"))?;
        self.join_votes.insert(source);
        if self.election_won || !self.have_quorum(self.join_votes, own.config) {
            return Ok(Effects::default());
        }
        self.last_published_version = own.id.version;
        self.election_won = true;
        Ok(Effects { won: Some(term), ..Effects::default() })
    }

    /// Publishes a value of a client.
    fn handle_client_value(&mut self, version: u64, config: NodeSet, value: &Rc<ClusterValue>) -> Answer {
        let accepted = &self.persisted.last_accepted;
        let committed = self.persisted.last_committed_config;
        let published = self.last_published_version;
        check(self.election_won, Cause::Plain("NotWon"))?;
        check(published == accepted.id.version, Cause::OfNumbers("NotAccepted", published, accepted.id.version))?;
        check(version > published, Cause::OfNumbers("VersionNotGreater", published, version))?;
        check(version <= MAX_TERM_OR_VERSION, Cause::OfNumber("VersionTooLarge", version))?;
        let is_settled = committed == accepted.config;
        check(config == accepted.config || is_settled, Cause::Plain("Reconfiguring"))?;
        check(config.has_quorum(self.join_votes), Cause::Plain("NoJoinQuorum"))?;
        let id = StateId { term: self.persisted.current_term, version };
        let parent = Some(accepted.id);
        let state = Rc::new(ClusterState { id, parent, config, committed, value: Rc::clone(value) });
        self.last_published = Some(Rc::clone(&state));
        self.last_published_version = version;
        self.last_published_config = config;
        self.publish_votes = NodeSet::default();
        Ok(Effects::sends(self.me, None, MessageBody::PublishRequest(state)))
    }

    fn handle_publish_request(&mut self, journal: &mut Journal, source: Node, state: &Rc<ClusterState>) -> Answer {
        let (own, id) = (self.persisted.last_accepted.id, state.id);
        self.check_term(id.term)?;
        check(
            id.term != own.term || id.version > own.version,
            Cause::OfNumbers("VersionNotGreater", own.version, id.version),
        )?;
        self.accept(journal, state);
        Ok(Effects::sends(self.me, Some(source), MessageBody::PublishResponse(id)))
    }

    /// Counts the response to a publication. Each that makes or finds a publish quorum has a commit sent.
    fn handle_publish_response(&mut self, source: Node, id: StateId) -> Answer {
        let published = self.last_published_version;
        check(self.election_won, Cause::Plain("NotWon"))?;
        self.check_term(id.term)?;
        check(id.version == published, Cause::OfNumbers("VersionMismatch", published, id.version))?;
        self.publish_votes.insert(source);
        if !self.have_quorum(self.publish_votes, self.last_published_config) {
            return Ok(Effects::default());
        }
        let commit = Effects::sends(self.me, None, MessageBody::ApplyCommit(id));
        Ok(Effects { committed: self.last_published.clone(), ..commit })
    }

    fn handle_commit(&mut self, journal: &mut Journal, id: StateId) -> Answer {
        let own = self.persisted.last_accepted.id;
        let published = self.last_published_version;
        self.check_term(id.term)?;
        check(id.term == own.term, Cause::OfNumbers("AcceptedTermMismatch", own.term, id.term))?;
        check(id.version == own.version, Cause::OfNumbers("VersionMismatch", own.version, id.version))?;
        let is_publishing = self.election_won && published != own.version;
        check(!is_publishing, Cause::OfNumbers("Publishing", own.version, published))?;
        journal.append(COMMIT_BODY, |_, _| ());
        self.persisted.last_committed_config = self.persisted.last_accepted.config;
        Ok(Effects::default())
    }

    /// Keeps a state as the accepted one, and with it the committed configuration that it carries.
    fn accept(&mut self, journal: &mut Journal, state: &Rc<ClusterState>) {
        journal.append(STATE_BODY, |ids, out| put_state(ids, out, state));
        self.persisted.last_accepted = Rc::clone(state);
        self.persisted.last_committed_config = state.committed;
    }

    fn check_term(&self, term: u64) -> Result<(), Cause> {
        let current = self.persisted.current_term;
        check(term == current, Cause::OfNumbers("TermMismatch", current, term))
    }

    /// Whether votes are a quorum of this configuration and of the committed one. That is an election quorum with the
    /// accepted configuration, and a publish quorum with the one that was published last.
    fn have_quorum(&self, votes: NodeSet, config: NodeSet) -> bool {
        self.persisted.last_committed_config.has_quorum(votes) && config.has_quorum(votes)
    }
}

// The trace -----------------------------------------------------------------------------------------------------------

/// The trace as far as it is held back.
struct Trace<'a> {
    ids: &'a Ids<'a>,
    held: Vec<u8>,
}

impl<'a> Trace<'a> {
    fn bytes(&mut self, bytes: &[u8]) -> &mut Self {
        self.held.extend_from_slice(bytes);
        self
    }

    fn word(&mut self, word: &str) -> &mut Self {
        self.bytes(word.as_bytes())
    }

    fn byte(&mut self, byte: u8) -> &mut Self {
        self.held.push(byte);
        self
    }

    fn number(&mut self, mut number: u64) -> &mut Self {
        let mut digits = [0; 20];
        let mut start = digits.len();
        loop {
            start -= 1;
            digits[start] = b'0' + (number % 10) as u8;
            number /= 10;
            if number == 0 {
                return self.bytes(&digits[start..]);
            }
        }
    }

    fn node(&mut self, node: Node) -> &mut Self {
        self.word(self.ids.id(node))
    }

    fn config(&mut self, config: NodeSet) -> &mut Self {
        if config.is_empty() {
            return self.byte(b'_');
        }
        for (place, node) in config.nodes().enumerate() {
            self.comma(place).node(node);
        }
        self
    }

    /// What stands before the item at this place of a list: a comma, but before the first one.
    fn comma(&mut self, place: usize) -> &mut Self {
        self.word(if place == 0 { "" } else { "," })
    }

    fn state_id(&mut self, id: StateId) -> &mut Self {
        self.number(id.term).byte(b'/').number(id.version)
    }

    // No byte of an id or of a setting needs an escape: both have `a` to `z`, `0` to `9` and `-` alone.
    fn json_text(&mut self, text: &str) -> &mut Self {
        self.byte(b'"').word(text).byte(b'"')
    }

    fn json_node(&mut self, node: Node) -> &mut Self {
        self.json_text(self.ids.id(node))
    }

    fn json_nodes(&mut self, nodes: NodeSet) -> &mut Self {
        self.byte(b'[');
        for (place, node) in nodes.nodes().enumerate() {
            self.comma(place).json_node(node);
        }
        self.byte(b']')
    }

    fn json_value(&mut self, value: &ClusterValue) -> &mut Self {
        self.word("{\"exclusions\":").json_nodes(value.exclusions).word(",\"master\":");
        match value.master {
            Some(master) => self.json_node(master),
            None => self.word("null"),
        };
        self.word(",\"members\":").json_nodes(value.members).word(",\"settings\":{");
        for (place, (key, setting)) in value.settings.iter().enumerate() {
            self.comma(place).json_text(key).byte(b':').json_text(setting);
        }
        self.word("}}")
    }

    fn json_state(&mut self, state: &ClusterState) -> &mut Self {
        self.word("{\"committed\":").json_nodes(state.committed).word(",\"config\":").json_nodes(state.config);
        self.word(",\"parent\":");
        match state.parent {
            Some(id) => self.word("{\"term\":").number(id.term).word(",\"version\":").number(id.version).byte(b'}'),
            None => self.word("null"),
        };
        self.word(",\"term\":").number(state.id.term).word(",\"value\":").json_value(&state.value);
        self.word(",\"version\":").number(state.id.version).byte(b'}')
    }

    /// The line of an act, with how it ended.
    fn act_line(&mut self, node: Node, act: &Act, ended: &Result<Effects, Cause>) {
        self.word("act ").node(node);
        match ended {
            Ok(_) => self.word(" ok "),
            Err(cause) => self.word(" refused:").cause(cause).byte(b' '),
        };
        match act {
            Act::SetInitialState { config } => self.word("boot ").config(*config),
            Act::StartJoin { candidate, term } => self.word("startjoin ").node(*candidate).byte(b' ').number(*term),
            Act::ClientValue { version, config, value } => {
                self.word("value ").number(*version).byte(b' ').config(*config).byte(b' ').json_value(value)
            }
            Act::Take(message) => {
                self.word(message.body.name()).byte(b' ').node(message.source);
                if let Some(target) = message.target {
                    self.byte(b' ').node(target);
                }
                self.byte(b' ').message_fields(message)
            }
        };
        self.byte(b'\n');
    }

    fn cause(&mut self, cause: &Cause) -> &mut Self {
        match *cause {
            Cause::Plain(name) => self.word(name),
            Cause::OfNode(name, node) => self.word(name).byte(b'(').node(node).byte(b')'),
            Cause::OfNumber(name, number) => self.word(name).byte(b'(').number(number).byte(b')'),
            Cause::OfNumbers(name, own, other) => {
                self.word(name).byte(b'(').number(own).byte(b',').number(other).byte(b')')
            }
        }
    }

    /// The line of a message that is sent.
    fn message_line(&mut self, ordinal: usize, message: &Message) {
        self.byte(b'm').number(ordinal as u64).byte(b' ').node(message.source).word("->");
        match message.target {
            Some(target) => self.node(target),
            None => self.byte(b'*'),
        };
        self.byte(b' ').word(message.body.name()).byte(b' ').message_fields(message).byte(b'\n');
    }

    fn message_fields(&mut self, message: &Message) -> &mut Self {
        match &message.body {
            MessageBody::Join { term, last_accepted } => self.number(*term).byte(b' ').state_id(*last_accepted),
            MessageBody::PublishRequest(state) => self.json_state(state),
            MessageBody::PublishResponse(id) | MessageBody::ApplyCommit(id) => self.state_id(*id),
        }
    }

    /// The record that a node has found in its journal.
    fn record_line(&mut self, node: Node, found: &PersistedState) {
        let accepted = &found.last_accepted;
        self.word("record ").node(node).byte(b' ').number(found.current_term).byte(b' ');
        self.state_id(accepted.id).byte(b' ').config(accepted.config);
        self.byte(b' ').config(found.last_committed_config).byte(b'\n');
    }

    /// What became of a node: `down`, `up` or `crashed`.
    fn node_line(&mut self, what: &str, node: Node) {
        self.word(what).byte(b' ').node(node).byte(b'\n');
    }
}

// The replay ----------------------------------------------------------------------------------------------------------

/// A node of the replay. It is down where it has no state.
struct ReplayNode<'a> {
    journal: Journal<'a>,
    state: Option<CoordinationState>,
}

impl<'a> ReplayNode<'a> {
    fn new(ids: &'a Ids<'a>, me: Node) -> Self {
        let state = CoordinationState { me, ..CoordinationState::default() };
        ReplayNode { journal: Journal::new(ids), state: Some(state) }
    }
}

/// The nodes, the messages that they have sent, and the trace.
struct Replayer<'a> {
    initial: NodeSet,
    nodes: Vec<ReplayNode<'a>>,
    sent: Vec<Message>,
    trace: Trace<'a>,
}

/// Writes the trace of a schedule piece by piece. Each node begins with an empty journal.
fn replay(schedule: &Schedule, out: &mut impl Write) -> io::Result<()> {
    let ids = &schedule.ids;
    let mut replayer = Replayer {
        initial: schedule.initial,
        nodes: ids.nodes().map(|me| ReplayNode::new(ids, me)).collect(),
        sent: Vec::new(),
        trace: Trace { ids, held: Vec::new() },
    };
    for line in &schedule.lines {
        replayer.trace.word("> ").bytes(line.text).byte(b'\n');
        replayer.event(&line.event);
        if replayer.trace.held.len() > PIECE_BYTES {
            out.write_all(&replayer.trace.held)?;
            replayer.trace.held.clear();
        }
    }
    out.write_all(&replayer.trace.held)?;
    out.flush()
}

impl<'a> Replayer<'a> {
    fn node(&mut self, node: Node) -> &mut ReplayNode<'a> {
        &mut self.nodes[usize::from(node.0)]
    }

    fn event(&mut self, event: &Event) {
        match *event {
            Event::Boot { node } => self.act(node, Act::SetInitialState { config: self.initial }),
            Event::StartJoin { node, candidate, term } => self.act(node, Act::StartJoin { candidate, term }),
            Event::Value { node, version, text, config } => {
                let mut value = ClusterValue::default();
                value.settings.insert("v".to_owned(), text.to_owned());
                self.act(node, Act::ClientValue { version, config, value: Rc::new(value) });
            }
            Event::Deliver { node, ordinal } => match self.sent.get(ordinal - 1).cloned() {
                Some(message) => self.act(node, Act::Take(message)),
                None if self.node(node).state.is_none() => self.trace.node_line("down", node),
                None => {
                    self.trace.word("unsent\n");
                }
            },
            Event::Crash { node } => match self.node(node).state.take() {
                Some(_) => self.trace.node_line("crashed", node),
                None => self.trace.node_line("down", node),
            },
            Event::Restart { node } => self.restart(node),
        }
    }

    /// Hands an act to a node, writes what it did, and keeps the message that it sends.
    fn act(&mut self, node: Node, act: Act) {
        let ReplayNode { journal, state: Some(state) } = self.node(node) else {
            return self.trace.node_line("down", node);
        };
        let ended = state.handle(journal, &act);
        self.trace.act_line(node, &act, &ended);
        let Ok(effects) = ended else { return };
        if let Some(term) = effects.won {
            self.trace.word("won ").node(node).byte(b' ').number(term).byte(b'\n');
        }
        if let Some(state) = effects.committed {
            self.trace.word("committed ").json_state(&state).byte(b'\n');
        }
        if let Some(message) = effects.sends {
            self.trace.message_line(self.sent.len() + 1, &message);
            self.sent.push(message);
        }
    }

    fn restart(&mut self, node: Node) {
        let ReplayNode { journal, state } = &mut self.nodes[usize::from(node.0)];
        if state.is_some() {
            return self.trace.node_line("up", node);
        }
        let found = journal.read().expect("the bytes that this program has appended are a journal");
        self.trace.record_line(node, &found);
        *state = Some(CoordinationState { me: node, persisted: found, ..CoordinationState::default() });
    }
}
