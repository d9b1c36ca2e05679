// A program with a named range, "smooth", which a panic ends too: rounds N.
use std::ffi::{c_char, c_int, CString};

extern "C" {
    fn PAPI_hl_region_begin(name: *const c_char) -> c_int;
    fn PAPI_hl_region_end(name: *const c_char) -> c_int;
}

struct Region(CString);

impl Region {
    fn begin(name: &str) -> Region {
        let name = CString::new(name).expect("a name has no NUL");
        assert_eq!(unsafe { PAPI_hl_region_begin(name.as_ptr()) }, 0);
        Region(name)
    }
}

impl Drop for Region {
    fn drop(&mut self) {
        unsafe { PAPI_hl_region_end(self.0.as_ptr()) };
    }
}

fn smooth(cells: &mut [f64], rounds: usize) {
    let _region = Region::begin("smooth");
    for _ in 0..rounds {
        for i in 1..cells.len() - 1 {
            cells[i] = (cells[i - 1] + cells[i] + cells[i + 1]) / 3.0;
        }
    }
}

fn main() {
    let word = std::env::args().nth(1);
    let mut cells = vec![0.0; 4096];
    cells[2048] = 1.0;
    smooth(&mut cells, word.map_or(100, |word| word.parse().expect("a number of rounds")));
    assert!(cells[1] < 1.0);
}
