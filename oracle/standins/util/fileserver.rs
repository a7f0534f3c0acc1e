//! No file is read: these names are asked for and never used.

use crate::*;

pub type FileServerHandle = u32;

pub trait FileServer {}

pub struct FileServerMock;

impl FileServerMock {
    pub fn new() -> FileServerMock {
        FileServerMock
    }

    pub fn add(&mut self, _name: &str, _text: &str) {}
}

impl FileServer for FileServerMock {}

impl util::BitVec {
    pub fn format_binary(&self, _report: &mut diagn::Report) -> Vec<u8> {
        unreachable!("form 1 files are not assembled from text")
    }
}
