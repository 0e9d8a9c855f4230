//! Makes the calls of a hub, each watched, and repeats a call that reports out of memory.
use crate::houses::{still_tells, told_by};
use crate::record::{Record, is_refusal};
use crate::steering::watched;
use clock_device::Text;
use clock_front::{Conn, Event, Fed, Front, Hub, HubFault, Reply};
use clock_processor::Processor;
use std::alloc::Global;

/// A connection, and the bytes that it received.
#[derive(Drop)]
struct Line {
    conn: Conn,
    text: Text,
}

/// A hub, its connections, and what its house's reading calls returned after the last reply.
#[derive(Drop)]
pub struct Calls<P> {
    alloc: Global,
    hub: Hub<P>,
    lines: Vec<Line>,
    told: Text,
}

/// The reply to a whole text over a new connection, whose input then ends.
fn reply_over_new<P: Processor>(hub: &mut Hub<P>, text: &[u8]) -> anyhow::Result<Reply> {
    let conn = hub.connect()?;
    match hub.feed(conn, text)? {
        Fed::Reply(reply) => Ok(reply),
        Fed::More => Ok(hub.finish(conn)?),
    }
}

/// Whether a connection is gone.
fn is_gone<P: Processor>(hub: &mut Hub<P>, conn: Conn) -> bool {
    hub.feed(conn, b"x").err() == Some(HubFault::Unknown)
        && hub.finish(conn).err() == Some(HubFault::Unknown)
}

impl<P: Processor> Calls<P> {
    pub fn new(alloc: Global, front: Front<P>) -> anyhow::Result<Calls<P>> {
        let told = told_by(alloc, front.house())?;
        Ok(Calls {
            alloc,
            hub: Hub::new(alloc, front),
            lines: Vec::new(alloc),
            told,
        })
    }

    /// Adds everything that the reading calls return to the record.
    pub fn tell(&self, record: &mut Record) -> anyhow::Result<()> {
        let told = told_by(self.alloc, self.hub.front().house())?;
        record.push_bytes(told.as_slice())
    }

    /// Whether the reading calls return what they returned after the last reply.
    fn is_as_before(&self) -> anyhow::Result<bool> {
        still_tells(self.alloc, self.hub.front().house(), &self.told)
    }

    /// The connection with this number.
    fn conn(&self, number: u64) -> anyhow::Result<Conn> {
        match self.lines.get(number as usize) {
            Some(line) => Ok(line.conn),
            None => anyhow::bail!("no such connection"),
        }
    }

    /// Makes a connection. Repeats the call if it is out of memory.
    fn connect(&mut self, record: &mut Record) -> anyhow::Result<()> {
        let mut made = watched(|| self.hub.connect());
        if made == Err(HubFault::NoMemory) {
            record.refuse(self.is_as_before()?);
            made = self.hub.connect();
        }
        let text = Text::new(self.alloc);
        self.lines.push(Line { conn: made?, text })?;
        Ok(())
    }

    /// Feeds a piece. If the call is out of memory, the connection must still have its earlier
    /// bytes, and the piece is fed again.
    fn feed(&mut self, record: &mut Record, number: u64, piece: &[u8]) -> anyhow::Result<()> {
        let conn = self.conn(number)?;
        if let Some(line) = self.lines.get_mut(number as usize) {
            line.text.extend_from_slice(piece)?;
        }
        let fed = match watched(|| self.hub.feed(conn, piece)) {
            Err(HubFault::NoMemory) => {
                record.refuse(self.is_as_before()?);
                self.hub.feed(conn, piece)?
            }
            first => first?,
        };
        match fed {
            Fed::More => Ok(()),
            Fed::Reply(reply) => self.settle(record, number, &reply),
        }
    }

    /// Ends the input of a connection, and notes the reply.
    fn finish(&mut self, record: &mut Record, number: u64) -> anyhow::Result<()> {
        let conn = self.conn(number)?;
        let reply = watched(|| self.hub.finish(conn))?;
        self.settle(record, number, &reply)
    }

    /// Notes the reply to a connection's text. If it is an out-of-memory reply, the connection must
    /// be gone, and the bytes are sent again over a new one.
    fn settle(&mut self, record: &mut Record, number: u64, reply: &Reply) -> anyhow::Result<()> {
        record.push_number(number)?;
        if is_refusal(reply) {
            let conn = self.conn(number)?;
            let is_gone = is_gone(&mut self.hub, conn);
            record.refuse_by(reply, self.is_as_before()? && is_gone);
            let text = self.lines[number as usize].text.as_slice();
            record.push_bytes(reply_over_new(&mut self.hub, text)?.bytes())?;
        } else {
            record.push_bytes(reply.bytes())?;
        }
        self.told = told_by(self.alloc, self.hub.front().house())?;
        Ok(())
    }

    /// Makes the call for an event.
    pub fn take(&mut self, record: &mut Record, event: &Event) -> anyhow::Result<()> {
        match event {
            Event::Connect => self.connect(record),
            Event::Piece(number, piece) => self.feed(record, *number, piece.as_slice()),
            Event::Finish(number) => self.finish(record, *number),
        }
    }
}
