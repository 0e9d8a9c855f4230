//! The record of one run of a scenario.
use clock_front::Reply;
use clock_views::Code;
use std::alloc::Global;

/// The out-of-memory reply.
const NO_MEMORY: &[u8] = b"HTTP/1.1 503 Service Unavailable\r\nconnection: close\r\n\
    content-length: 30\r\ncontent-type: application/json\r\n\r\n{\"code\":\"memory\",\"status\":503}";

/// The last results of the calls, the count of out-of-memory results, and whether each of these
/// was reported correctly and changed nothing.
#[derive(Drop)]
pub struct Record {
    alloc: Global,
    text: String,
    refusals: u64,
    is_clean: bool,
}

/// Whether a reply is an out-of-memory reply.
pub fn is_refusal(reply: &Reply) -> bool {
    reply.code() == Code::Memory
}

impl Record {
    pub fn new(alloc: Global) -> Record {
        Record {
            alloc,
            text: String::new(alloc),
            refusals: 0,
            is_clean: true,
        }
    }

    pub fn text(&self) -> &str {
        self.text.as_str()
    }

    pub fn refusals(&self) -> u64 {
        self.refusals
    }

    pub fn is_clean(&self) -> bool {
        self.is_clean
    }

    /// Adds a line to the results.
    pub fn push(&mut self, line: &str) -> anyhow::Result<()> {
        self.text.push_str(line)?;
        self.text.push_str("\n")?;
        Ok(())
    }

    /// Adds bytes to the results.
    pub fn push_bytes(&mut self, bytes: &[u8]) -> anyhow::Result<()> {
        let line = String::from_utf8_lossy(self.alloc, bytes)?;
        self.push(line.as_str())
    }

    /// Adds a number to the results.
    pub fn push_number(&mut self, number: u64) -> anyhow::Result<()> {
        let line = format!(in self.alloc; "{number}")?;
        self.push(line.as_str())
    }

    /// Counts an out-of-memory result, after which everything was as before if `is_as_before`.
    pub fn refuse(&mut self, is_as_before: bool) {
        self.refusals = self.refusals.saturating_add(1);
        self.is_clean = self.is_clean && is_as_before;
    }

    /// Counts an out-of-memory reply, after which everything was as before if `is_as_before`.
    pub fn refuse_by(&mut self, reply: &Reply, is_as_before: bool) {
        self.refuse(is_as_before && reply.bytes() == NO_MEMORY);
    }
}
