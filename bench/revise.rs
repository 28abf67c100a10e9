// The loop of `TupleTable::revise` in plain Rust, for bench/run. Arguments: the form, rows, calls.
// Prints a checksum and the nanoseconds of processor time that the calls took.
#[repr(C)]
struct Time {
    seconds: i64,
    nanos: i64,
}

extern "C" {
    fn clock_gettime(clock: i32, time: *mut Time) -> i32;
}

// CLOCK_PROCESS_CPUTIME_ID of Linux
fn cpu_time() -> u64 {
    let mut time = Time { seconds: 0, nanos: 0 };
    unsafe { clock_gettime(2, &mut time) };
    time.seconds as u64 * 1_000_000_000 + time.nanos as u64
}

struct Support {
    masks: [u64; 4],
    alive: u32,
}

// With no branch, so that the compiler can take several rows a step.
#[inline(never)]
fn revise_plain(columns: &[Vec<u64>; 4], sets: [u64; 4]) -> Support {
    let [a, b, c, d] = columns;
    let (mut masks, mut alive) = ([0; 4], 0u64);
    for (((a, b), c), d) in a.iter().zip(b).zip(c).zip(d) {
        let live = (a & sets[0] != 0) & (b & sets[1] != 0) & (c & sets[2] != 0) & (d & sets[3] != 0);
        let keep = u64::from(live).wrapping_neg();
        masks[0] |= a & keep;
        masks[1] |= b & keep;
        masks[2] |= c & keep;
        masks[3] |= d & keep;
        alive += u64::from(live);
    }
    Support { masks, alive: alive as u32 }
}

// Each test stops at the first place that fails.
#[inline(never)]
fn revise_branches(columns: &[Vec<u64>; 4], sets: [u64; 4]) -> Support {
    let [a, b, c, d] = columns;
    let (mut masks, mut alive) = ([0; 4], 0);
    for i in 0..a.len() {
        if a[i] & sets[0] != 0 && b[i] & sets[1] != 0 && c[i] & sets[2] != 0 && d[i] & sets[3] != 0 {
            masks[0] |= a[i];
            masks[1] |= b[i];
            masks[2] |= c[i];
            masks[3] |= d[i];
            alive += 1;
        }
    }
    Support { masks, alive }
}

fn main() {
    let words: Vec<String> = std::env::args().collect();
    let (rows, calls): (u32, u32) = (words[2].parse().unwrap(), words[3].parse().unwrap());
    let revise = if words[1] == "plain" { revise_plain } else { revise_branches };
    let mut columns = [const { Vec::new() }; 4];
    let mut x: u32 = 1;
    for _ in 0..rows {
        for column in &mut columns {
            x = x.wrapping_mul(1664525).wrapping_add(1013904223);
            column.push(1u64 << ((x >> 16) % 6));
        }
    }
    let start = cpu_time();
    let mut total: u64 = 0;
    for k in 0..u64::from(calls) {
        let found = revise(&columns, [63 ^ (k % 64), 63 ^ (k / 64 % 64), 62, 31]);
        let [a, b, c, d] = found.masks;
        total = total.wrapping_mul(31).wrapping_add(a ^ b * 3 ^ c * 5 ^ d * 7 ^ u64::from(found.alive));
    }
    println!("{total} {}", cpu_time() - start);
}
