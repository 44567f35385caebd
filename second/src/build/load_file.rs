//! A builder of load files from readable parts. Left alone it makes sound files; a fault is made
//! by setting the part that is to be wrong.

use crate::build::plan_load::PlanLoad;

/// The length word, a count or a length byte is worked out where it isn't set by hand.
#[derive(Clone)]
pub struct LoadFile {
    pub version: u8,
    pub length_word: Option<u32>,
    pub stages: u8,
    pub flow_count: Option<u16>,
    pub block_count: Option<u16>,
    pub flows: Vec<Flow>,
    pub blocks: Vec<Block>,
    pub left_over: Vec<u8>,
}

#[derive(Clone)]
pub struct Flow {
    pub length: Option<u8>,
    pub name: Vec<u8>,
}

#[derive(Clone)]
pub struct Block {
    pub length: Option<u8>,
    pub flow: u16,
    pub arrival: u32,
    pub times: Vec<u32>,
    /// Bytes more (or, below 0, fewer) than the fields take.
    pub stretch: isize,
}

impl LoadFile {
    pub fn new(stages: u8) -> LoadFile {
        LoadFile {
            version: 1,
            length_word: None,
            stages,
            flow_count: None,
            block_count: None,
            flows: Vec::new(),
            blocks: Vec::new(),
            left_over: Vec::new(),
        }
    }

    /// The file of a load whose flows have these names.
    pub fn of(load: &PlanLoad, names: &[Vec<u8>]) -> LoadFile {
        let mut file = LoadFile::new(load.stages as u8);
        for name in names {
            file = file.flow(name);
        }
        for block in &load.blocks {
            let times = &block.times[..load.stages];
            file = file.block(block.flow as u16, block.arrival, times);
        }
        file
    }

    pub fn flow(mut self, name: &[u8]) -> LoadFile {
        self.flows.push(Flow {
            length: None,
            name: name.to_vec(),
        });
        self
    }

    pub fn flows(self, names: &[&str]) -> LoadFile {
        names
            .iter()
            .fold(self, |file, name| file.flow(name.as_bytes()))
    }

    pub fn block(mut self, flow: u16, arrival: u32, times: &[u32]) -> LoadFile {
        self.blocks.push(Block {
            length: None,
            flow,
            arrival,
            times: times.to_vec(),
            stretch: 0,
        });
        self
    }

    /// The bytes of this file after a change.
    pub fn with(&self, change: impl FnOnce(&mut LoadFile)) -> Vec<u8> {
        let mut changed = self.clone();
        change(&mut changed);
        changed.bytes()
    }

    pub fn bytes(&self) -> Vec<u8> {
        self.cut(usize::MAX)
    }

    /// Only the first bytes, under a length word that fits them: the end is where a record is
    /// missed, and not in the header.
    pub fn cut(&self, keep: usize) -> Vec<u8> {
        let mut out = vec![self.version, 0, 0, 0, 0, self.stages];
        let flow_count = self.flow_count.unwrap_or(self.flows.len() as u16);
        let block_count = self.block_count.unwrap_or(self.blocks.len() as u16);
        out.extend_from_slice(&flow_count.to_be_bytes());
        out.extend_from_slice(&block_count.to_be_bytes());
        for flow in &self.flows {
            out.extend_from_slice(&flow.record());
        }
        for block in &self.blocks {
            out.extend_from_slice(&block.record());
        }
        out.extend_from_slice(&self.left_over);
        out.truncate(keep);
        match self.length_word {
            Some(word) => set_length_word(&mut out, word),
            None => fit_length_word(&mut out),
        }
        out
    }

    /// Where a flow's record starts; with the flow count, where the blocks start.
    pub fn flow_start(&self, flow: usize) -> usize {
        let before: usize = self.flows[..flow].iter().map(|f| f.record().len()).sum();
        10 + before
    }

    /// Where a block's record starts; with the block count, where the blocks end.
    pub fn block_start(&self, block: usize) -> usize {
        let before: usize = self.blocks[..block].iter().map(|b| b.record().len()).sum();
        self.flow_start(self.flows.len()) + before
    }

    /// The words that the reader needs for this file.
    pub fn words(&self) -> u32 {
        6 * self.blocks.len() as u32
    }
}

impl Flow {
    fn record(&self) -> Vec<u8> {
        let mut out = vec![self.length.unwrap_or(self.name.len() as u8)];
        out.extend_from_slice(&self.name);
        out
    }
}

impl Block {
    fn record(&self) -> Vec<u8> {
        let fields = 6 + 4 * self.times.len();
        let mut out = vec![self.length.unwrap_or(fields as u8)];
        out.extend_from_slice(&self.flow.to_be_bytes());
        out.extend_from_slice(&self.arrival.to_be_bytes());
        for time in &self.times {
            out.extend_from_slice(&time.to_be_bytes());
        }
        out.resize((out.len() as isize + self.stretch) as usize, 0);
        out
    }
}

/// Writes bytes 1 to 4, as far as the file has them.
pub fn set_length_word(file: &mut [u8], word: u32) {
    for (byte, new) in file.iter_mut().skip(1).zip(word.to_be_bytes()) {
        *byte = new;
    }
}

/// Makes the length word the count of bytes after byte 4.
pub fn fit_length_word(file: &mut [u8]) {
    let after = file.len().saturating_sub(5) as u32;
    set_length_word(file, after);
}
