//! A run for which there is no memory. It limits the memory of its whole process, and so it is a test of its own.

#[repr(C)]
struct Limit {
    now: u64,
    most: u64,
}

extern "C" {
    fn setrlimit(what: i32, limit: *const Limit) -> i32;
}

#[cfg(target_os = "linux")]
#[test]
fn no_memory() {
    const ADDRESS_SPACE: i32 = 9;
    // (each move of this program makes its stacks longer)
    let text = "fix x:nat. fix y:nat. y - x";
    let limit = Limit { now: 256 << 20, most: 256 << 20 };
    assert_eq!(unsafe { setrlimit(ADDRESS_SPACE, &limit) }, 0);
    assert_eq!(goi::tell(text, 20_000, false), Err(goi::Error::NoMemory));
    assert_eq!(goi::run(text, 20_000, false, false), Err(goi::Error::NoMemory));
    assert_eq!(goi::tell("1 + 2", goi::BUDGET, false).unwrap().moves, 6);
}
