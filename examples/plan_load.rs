//! Plans the load of document 01's example E3 through the static library, from Rust. It prints what `plan_load.c` prints.

/// The calls over slices. What C's header asks of a caller, Rust's types hold here, so nothing is left to be unsafe.
mod xarbulest {
    // As in xarbulest.h, with words in place of its structs.
    extern "C" {
        fn xarbulest_sound(file: *const u8, file_length: usize) -> u64;
        fn xarbulest_read(
            file: *const u8,
            file_length: usize,
            table: *mut u32,
            table_length: usize,
            counts: *mut [u64; 3],
        ) -> u64;
        fn xarbulest_name(
            file: *const u8,
            file_length: usize,
            standing: *const u8,
            standing_length: usize,
            flow: usize,
            room: *mut u8,
            room_length: usize,
        ) -> usize;
        fn xarbulest_plan(
            stages: usize,
            flows: usize,
            blocks: usize,
            limit: u64,
            table: *const u32,
            table_length: usize,
            records: *mut [u64; 3],
            records_length: usize,
            rows: *mut u64,
            rows_length: usize,
            counts: *mut [u64; 6],
        ) -> u64;
    }

    pub fn sound(file: &[u8]) -> u64 {
        unsafe { xarbulest_sound(file.as_ptr(), file.len()) }
    }

    /// The number, and stages, flows and blocks.
    pub fn read(file: &[u8], table: &mut [u32]) -> (u64, [u64; 3]) {
        let mut counts = [0; 3];
        let number = unsafe {
            xarbulest_read(file.as_ptr(), file.len(), table.as_mut_ptr(), table.len(), &mut counts)
        };
        (number, counts)
    }

    pub fn name(file: &[u8], standing: &[u8], flow: usize) -> Vec<u8> {
        // A name's length is a byte, so no name is longer than this.
        let mut room = vec![0; 255];
        let length = unsafe {
            xarbulest_name(
                file.as_ptr(),
                file.len(),
                standing.as_ptr(),
                standing.len(),
                flow,
                room.as_mut_ptr(),
                room.len(),
            )
        };
        room.truncate(length);
        room
    }

    /// The number, and blocks listed, turns, rounds, turns held, held ticks and the end. `load` has stages, flows and blocks.
    pub fn plan(
        load: [u64; 3],
        limit: u64,
        table: &[u32],
        records: &mut [[u64; 3]],
        rows: &mut [u64],
    ) -> (u64, [u64; 6]) {
        let mut counts = [0; 6];
        let number = unsafe {
            xarbulest_plan(
                load[0] as usize,
                load[1] as usize,
                load[2] as usize,
                limit,
                table.as_ptr(),
                table.len(),
                records.as_mut_ptr(),
                records.len(),
                rows.as_mut_ptr(),
                rows.len(),
                &mut counts,
            )
        };
        (number, counts)
    }
}

/// 2 stages, 1 flow with the name A, and 3 blocks: flow 0, arrival 0, times 1 and 10.
fn file() -> Vec<u8> {
    let mut file = vec![1, 0, 0, 0, 52, 2, 0, 1, 0, 3, 1, b'A'];
    for _ in 0..3 {
        file.extend([14, 0, 0, 0, 0, 0, 0, 0, 0, 0, 1, 0, 0, 0, 10]);
    }
    file
}

fn spaced(words: &[u64]) -> String {
    words.iter().map(|w| w.to_string()).collect::<Vec<_>>().join(" ")
}

fn main() {
    let file = file();
    println!("sound {}", xarbulest::sound(&file));
    let mut table = [0; 18];
    let (number, load) = xarbulest::read(&file, &mut table);
    println!("read {}\nload {}", number, spaced(&load));
    let name = String::from_utf8(xarbulest::name(&file, &[], 0)).expect("a name's bytes are 33 to 126");
    println!("name {}", name);

    // A row table that is a word too short is refused by 7. It stays as it was, and the counts are 0.
    let mut records = [[0; 3]; 1];
    let mut rows = [u64::MAX; 45];
    let (number, counts) = xarbulest::plan(load, u64::MAX, &table, &mut records, &mut rows[..44]);
    println!("plan {}\ncounts {}", number, spaced(&counts));
    println!("rows {}", if rows == [u64::MAX; 45] { "unchanged" } else { "changed" });

    let (number, counts) = xarbulest::plan(load, u64::MAX, &table, &mut records, &mut rows);
    println!("plan {}\ncounts {}", number, spaced(&counts));
    for row in rows.chunks(15).take(counts[0] as usize) {
        // Block, flow, round, turn, balance, hold, dominant stage; then start and finish for each stage.
        print!("{} {} {}", name, row[0], spaced(&row[2..7]));
        for stage in row[7..].chunks(2).take(load[0] as usize) {
            print!(" {}-{}", stage[0], stage[1]);
        }
        println!();
    }
    println!("flow {}", spaced(&records[0]));
}
