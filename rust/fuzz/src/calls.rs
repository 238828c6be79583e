//! The calls of include/*.h as they are: `r` is a slice that is read and `w` one that is written, each a pointer and then a length; `n` is a number.
//! A Rust slice is never null and overlaps no other that is written, which is all that the headers ask for.

macro_rules! calls {
    ($($name:ident($($args:tt)*) -> $ret:ty;)*) => {
        /// The names of the calls.
        pub const NAMES: &[&str] = &[$(stringify!($name)),*];
        $(calls!(@ $name [$($args)*] [] [] [] $ret);)*
    };
    (@ $name:ident [r $a:ident $(, $($rest:tt)*)?] [$($e:tt)*] [$($p:tt)*] [$($v:tt)*] $ret:ty) => {
        calls!(@ $name [$($($rest)*)?] [$($e)* _: *const u8, _: u64,] [$($p)* $a: &[u8],] [$($v)* $a.as_ptr(), $a.len() as u64,] $ret);
    };
    (@ $name:ident [w $a:ident $(, $($rest:tt)*)?] [$($e:tt)*] [$($p:tt)*] [$($v:tt)*] $ret:ty) => {
        calls!(@ $name [$($($rest)*)?] [$($e)* _: *mut u8, _: u64,] [$($p)* $a: &mut [u8],] [$($v)* $a.as_mut_ptr(), $a.len() as u64,] $ret);
    };
    (@ $name:ident [n $a:ident: $t:ty $(, $($rest:tt)*)?] [$($e:tt)*] [$($p:tt)*] [$($v:tt)*] $ret:ty) => {
        calls!(@ $name [$($($rest)*)?] [$($e)* _: $t,] [$($p)* $a: $t,] [$($v)* $a,] $ret);
    };
    (@ $name:ident [] [$($e:tt)*] [$($p:tt)*] [$($v:tt)*] $ret:ty) => {
        #[allow(clippy::too_many_arguments)]
        pub fn $name($($p)*) -> $ret {
            extern "C" {
                fn $name($($e)*) -> $ret;
            }
            // SAFETY: each pointer is of a slice with its length.
            unsafe { $name($($v)*) }
        }
    };
}

calls! {
    uf2_new(w transfer) -> ();
    uf2_ask(r settings, n flash_len: u64, n family: u32, w place) -> u32;
    uf2_look(r settings, r transfer, r arrival, r flash, r seen, r sectors, r main, r xip) -> u32;
    uf2_take(r settings, w transfer, r arrival, w flash, w seen, w sectors, w main, w xip) -> u32;
    uf2_accept(r settings, w transfer, r arrival, r flash, w seen, w sectors, w main, w xip, w plan) -> u32;
    uf2_take_all(r settings, w transfer, r arrivals, w results, w flash, w seen, w sectors, w main, w xip) -> u64;
    uhex_new(n own: u16, w reader) -> ();
    uhex_line(w reader, r line, w image) -> u32;
    uf2_tag_first(r block) -> u64;
    uf2_tag(r block, n place: u64, w tag) -> u32;
    uf2_tag_find(r block, n kind: u32, w tag) -> u32;
    uf2_make_check(n image_len: u64, n start: u32, n output_len: u64) -> u32;
    uf2_make(r image, n family: u32, n start: u32, w output) -> u32;
    uf2_make_regions(r image, n family: u32, n start: u32, w output) -> u32;
    uf2_make_block(n address: u32, n number: u32, n total: u32, n family: u32, r page, w block) -> ();
    uhex_join(r v1, r v2, w output) -> u64;
    uf2_md5(r bytes, w digest) -> ();
    uf2_replay(r settings, r trace, w flash, w seen, w sectors, w main, w xip, w transfer, w index) -> u32;
    uf2_figures(w report, r settings, r trace, w flash, w seen, w sectors, w main, w xip, w index) -> u32;
    uf2_part_one(r report, n stop: u32, w part) -> u32;
    uf2_part_merge(w part, r later) -> u32;
    uf2_store_read(r store, n flash_len: u64, w settings) -> u32;
    uf2_store_write(r settings, n flash_len: u64, w store) -> u32;
    uf2_why(r settings, r transfer, r arrival, r flash, r seen, r sectors, r main, r xip, w reason) -> u32;
    uf2_why_place(r settings, n flash_len: u64, n family: u32, w reason) -> u32;
    uf2_check(r settings, r file, n flash_len: u64, n main_len: u64, n xip_len: u64, w numbers, w cells, w offsets, w told) -> u32;
    uf2_stands(r settings, r arrival, r flash, r main, r xip) -> u32;
}
