// The calls that are compared: the library's, or in a test of the comparison itself those of a wrong implementation.
use flatcarol::raw::{self, Answer, FramesAnswer, OneAnswer, OneOutputs, SeveralAnswer, TextAnswer};
use flatcarol::raw::{Work, ONE_WORK, SEVERAL_WORK, SPLIT_WORK};

pub trait Calls: Sync {
    fn split(&self, vertices: u64, list: &[u16], out: &mut [u16], work: Work<SPLIT_WORK>) -> Answer;
    fn undo_one(&self, vertices: u64, list: &[u16], asked: u64, out: OneOutputs, work: Work<ONE_WORK>) -> OneAnswer;
    fn undo_several(&self, vertices: u64, list: &[u16], asked: u64, out: &mut [u16], work: Work<SEVERAL_WORK>) -> SeveralAnswer;
    fn read_frames(&self, bytes: &[u8], out: &mut [u16]) -> FramesAnswer;
    fn write_frames(&self, vertices: u64, list: &[u16], out: &mut [u8]) -> FramesAnswer;
    fn read_index(&self, vertices: u64, text: &[u8], out: &mut [u16]) -> FramesAnswer;
    fn write_index(&self, vertices: u64, list: &[u16], out: &mut [u8]) -> TextAnswer;
}

// The proved library.
pub struct Library;

impl Calls for Library {
    fn split(&self, vertices: u64, list: &[u16], out: &mut [u16], work: Work<SPLIT_WORK>) -> Answer {
        raw::split(vertices, list, out, work)
    }

    fn undo_one(&self, vertices: u64, list: &[u16], asked: u64, out: OneOutputs, work: Work<ONE_WORK>) -> OneAnswer {
        raw::undo_one(vertices, list, asked, out, work)
    }

    fn undo_several(&self, vertices: u64, list: &[u16], asked: u64, out: &mut [u16], work: Work<SEVERAL_WORK>) -> SeveralAnswer {
        raw::undo_several(vertices, list, asked, out, work)
    }

    fn read_frames(&self, bytes: &[u8], out: &mut [u16]) -> FramesAnswer {
        raw::read_frames(bytes, out)
    }

    fn write_frames(&self, vertices: u64, list: &[u16], out: &mut [u8]) -> FramesAnswer {
        raw::write_frames(vertices, list, out)
    }

    fn read_index(&self, vertices: u64, text: &[u8], out: &mut [u16]) -> FramesAnswer {
        raw::read_index(vertices, text, out)
    }

    fn write_index(&self, vertices: u64, list: &[u16], out: &mut [u8]) -> TextAnswer {
        raw::write_index(vertices, list, out)
    }
}
