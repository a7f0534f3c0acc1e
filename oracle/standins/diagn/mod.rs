//! A flat report: what the Rust says, in the order in which it says it.

use crate::*;

/// A place in the source is a node's number here (or a bank's, in a bank's declaration).
#[derive(Copy, Clone, Debug)]
pub struct Span {
    pub node: usize,
    pub file_handle: util::FileServerHandle,
}

impl Span {
    pub fn new(node: usize) -> Span {
        Span { node, file_handle: 0 }
    }
}

#[derive(Debug)]
pub struct Message {
    pub text: String,
    pub span: Option<Span>,
}

#[derive(Debug)]
pub struct Report {
    pub messages: Vec<Message>,
    /// Whether a case ends where the Rust stops having a say.
    pub strict: bool,
    /// The refusal of document 01 that the Rust does not have, and its node.
    pub no_say: Option<(&'static str, usize)>,
}

impl Report {
    pub fn new() -> Report {
        Report { messages: Vec::new(), strict: false, no_say: None }
    }

    fn say(&mut self, text: String, span: Option<Span>) {
        self.messages.push(Message { text, span });
    }

    pub fn error_span<S: Into<String>>(&mut self, text: S, span: Span) {
        self.say(text.into(), Some(span));
    }

    pub fn push_parent<S: Into<String>>(&mut self, text: S, span: Span) {
        self.say(text.into(), Some(span));
    }

    pub fn note_span<S: Into<String>>(&mut self, text: S, span: Span) {
        self.say(text.into(), Some(span));
    }

    pub fn note<S: Into<String>>(&mut self, text: S) {
        self.say(text.into(), None);
    }

    pub fn pop_parent(&mut self) {}

    /// Here the Rust has no say: `reason` is the number of a refusal that it does not have, or `below` for an alignment of an
    /// address below zero. Where the report is strict the case ends.
    pub fn leaves_domain(&mut self, reason: &'static str, span: Span) -> Result<(), ()> {
        if self.no_say.is_none() {
            self.no_say = Some((reason, span.node));
        }

        if self.strict {
            Err(())
        } else {
            Ok(())
        }
    }

    /// The first message with this beginning, and the one after it.
    pub fn find(&self, beginning: &str) -> Option<(&Message, Option<&Message>)> {
        let at = self.messages.iter().position(|m| m.text.starts_with(beginning))?;
        Some((&self.messages[at], self.messages.get(at + 1)))
    }
}
