//! Flash that a driver writes: a simulated NOR flash and what it refuses, plans of a wrong length, whole files through the driver, and a driver
//! that fails. What every list of the other tests comes to through it stands in `Pair`.

use compare::nor::{Nor, Refused};
use compare::region::any_region;
use compare::{
    any_arrival, any_settings, any_transfer, arm_only, page, proved_settings, proved_transfer,
    Buffers, Ram, Random,
};
use proved::{Answer, FlashDriver, Plan, Transfer, PAGE_BYTES, PLAN_BYTES};
use reference::ARM_S;

const SECTOR: u32 = 4096;

#[test]
fn the_nor_flash_refuses() {
    let mut nor = Nor {
        bytes: vec![0xA5; 2 * SECTOR as usize],
    };
    for at in [1, 256, SECTOR - 1, SECTOR + 2048] {
        assert_eq!(nor.erase(at), Err(Refused::Unaligned));
    }
    assert_eq!(nor.erase(2 * SECTOR), Err(Refused::Outside));
    // across two pages, and past the end
    for at in [1, 128, 255, SECTOR - 128] {
        assert_eq!(nor.program(at, &[0; PAGE_BYTES]), Err(Refused::Unaligned));
    }
    assert_eq!(
        nor.program(2 * SECTOR, &[0; PAGE_BYTES]),
        Err(Refused::Outside)
    );
    // each bit from 0 to 1, at either end of a page
    for (at, bit) in [0, 255]
        .into_iter()
        .flat_map(|at| (0..8).map(move |b| (at, b)))
    {
        let mut bytes = [0; PAGE_BYTES];
        bytes[at] = 1 << bit;
        let wanted = if 0xA5 & bytes[at] == 0 {
            Err(Refused::NotErased)
        } else {
            Ok(())
        };
        let mut fresh = Nor {
            bytes: vec![0xA5; SECTOR as usize],
        };
        assert_eq!(fresh.program(0, &bytes), wanted);
        if wanted.is_err() {
            assert!(fresh.bytes.iter().all(|&b| b == 0xA5));
        }
    }
    assert_eq!(nor.erase(SECTOR), Ok(()));
    assert_eq!(nor.program(SECTOR, &[0x5A; PAGE_BYTES]), Ok(()));
    assert_eq!(nor.bytes[SECTOR as usize - 1..][..2], [0xA5, 0x5A]);
    assert_eq!(nor.bytes[SECTOR as usize + 255..][..2], [0x5A, 0xFF]);
}

/// A plan is 12 bytes: another length is answered 1, and nothing that is lent changes.
#[test]
fn plans_of_every_length() {
    let mut r = Random(90);
    let mut accepted = 0;
    for round in 0..400 {
        let sectors = r.of(&[1, 2, 5]);
        let ram = Ram::any(&mut r);
        let settings = match round % 2 {
            0 => arm_only(),
            _ => any_settings(&mut r, sectors),
        };
        let settings = proved_settings(&settings).bytes();
        let transfer = proved_transfer(any_transfer(&mut r, sectors * 16)).bytes();
        let mut lent = Buffers::any(&mut r, sectors, ram);
        let mut a = any_arrival(&mut r, sectors * 16, ram);
        if r.one_in(3) {
            any_region(&mut r, &mut a, &lent.flash, 0);
        }
        let was = lent.clone();
        let lengths = (0..40).chain([255, 256, 4096]).filter(|&n| n != PLAN_BYTES);
        for n in lengths {
            let mut after = transfer;
            let mut plan = vec![0x5A; n];
            assert_eq!(lent.accept(&settings, &mut after, &a, &mut plan), 1);
            assert!(after == transfer && plan.iter().all(|&b| b == 0x5A));
        }
        assert!(lent == was, "plans of wrong lengths change nothing");
        let mut after = transfer;
        let mut plan = [0x5A; PLAN_BYTES];
        let result = lent.accept(&settings, &mut after, &a, &mut plan);
        accepted += usize::from(result % 128 >= 14);
        assert!(lent.flash == was.flash);
        let planned = Plan::from_bytes(&plan).expect("a plan");
        assert_eq!(planned.bytes(), plan);
        if result % 128 < 14 {
            assert!(planned == Plan::Nothing && after == transfer && lent == was);
        }
    }
    assert!(accepted > 40, "{accepted}");
}

/// A deed's number is 0, 1 or 2; any other is no plan.
#[test]
fn plans_are_read_back() {
    let (sector, page) = (0x0102_3000, 0x0102_3400);
    for (deed, plan) in [
        (0, Plan::Nothing),
        (1, Plan::Program { sector, page }),
        (2, Plan::EraseProgram { sector, page }),
    ] {
        let mut bytes = plan.bytes();
        assert_eq!(bytes[..4], [deed, 0, 0, 0]);
        assert_eq!(Plan::from_bytes(&bytes), Some(plan));
        for at in 1..4 {
            bytes[at] = 1;
            assert_eq!(Plan::from_bytes(&bytes), None);
            bytes[at] = 0;
        }
        bytes[0] = 3;
        assert_eq!(Plan::from_bytes(&bytes), None);
    }
}

/// A NOR flash that counts what it did, and fails where it is told to.
struct Failing {
    nor: Nor,
    erases: usize,
    /// How many further calls succeed.
    working: usize,
}

#[derive(PartialEq, Eq, Debug)]
enum Error {
    Refused(Refused),
    Broken,
}

impl Failing {
    fn works(&mut self) -> Result<(), Error> {
        self.working = self.working.checked_sub(1).ok_or(Error::Broken)?;
        Ok(())
    }
}

impl AsRef<[u8]> for Failing {
    fn as_ref(&self) -> &[u8] {
        self.nor.as_ref()
    }
}

impl FlashDriver for Failing {
    type Error = Error;

    fn erase(&mut self, sector: u32) -> Result<(), Error> {
        self.works()?;
        self.erases += 1;
        self.nor.erase(sector).map_err(Error::Refused)
    }

    fn program(&mut self, page: u32, bytes: &[u8; PAGE_BYTES]) -> Result<(), Error> {
        self.works()?;
        self.nor.program(page, bytes).map_err(Error::Refused)
    }
}

/// A file in any order, with repeats, through a driver that fails somewhere: the error comes back, the transfer is fresh, and the file sent
/// again ends as taken. Each sector of a whole file is erased once.
#[test]
fn a_driver_that_fails() {
    let mut r = Random(91);
    let settings = proved_settings(&arm_only());
    for _ in 0..400 {
        let sectors = 1 + r.below(5);
        let n = 1 + r.below(sectors * 16) as u32;
        let mut order: Vec<u32> = (0..n)
            .chain((0..n / 3).map(|_| r.below(n.into()) as u32))
            .collect();
        r.shuffle(&mut order);
        let mut lent = Buffers::any(&mut r, sectors, Ram::NONE);
        let mut driver = Failing {
            nor: Nor {
                bytes: lent.flash.clone(),
            },
            erases: 0,
            working: r.below(u64::from(n)) as usize,
        };
        let mut transfer = Transfer::new();
        let mut send = |driver: &mut Failing, beside: &mut Buffers, k: u32| {
            let (_, mut beside) = beside.lend_beside();
            let a = page(ARM_S, n, k);
            let told = proved::take_through(&settings, &mut transfer, &a, driver, &mut beside);
            (told, transfer)
        };
        let mut beside = lent.clone();
        // it fails before the last page is programmed
        let failed = order.iter().find_map(|&k| {
            let (told, transfer) = send(&mut driver, &mut beside, k);
            told.err().map(|error| (error, transfer))
        });
        assert_eq!(failed, Some((Error::Broken, Transfer::Idle)));

        (driver.working, driver.erases) = (usize::MAX, 0);
        let mut taken = Transfer::new();
        lent.flash.clone_from(&driver.nor.bytes);
        for &k in &order {
            let (told, transfer) = send(&mut driver, &mut beside, k);
            let a = page(ARM_S, n, k);
            let wanted = proved::take(&settings, &mut taken, &a, &mut lent.lend());
            assert_eq!((told, transfer), (Ok(wanted), taken));
        }
        assert!(matches!(taken, Transfer::Done { .. }));
        assert!(driver.nor.bytes == lent.flash && beside.seen == lent.seen);
        assert!(beside.sectors == lent.sectors);
        assert_eq!(driver.erases, n.div_ceil(16) as usize);
    }
}

/// Two blocks with one address: the second is planned, since a take stores it. The NOR flash refuses it, and the transfer is dropped.
#[test]
fn one_page_twice() {
    let settings = proved_settings(&arm_only());
    let mut beside = Buffers::filled(0, 0);
    let mut nor = Nor {
        bytes: vec![0; SECTOR as usize],
    };
    let mut transfer = Transfer::new();
    let mut second = page(ARM_S, 3, 1);
    second[12..16].copy_from_slice(&0x1000_0000_u32.to_le_bytes());
    let mut send = |a: &[u8]| {
        let (_, mut beside) = beside.lend_beside();
        let told = proved::take_through(&settings, &mut transfer, a, &mut nor, &mut beside);
        (
            told.map(|outcome| outcome.answer),
            transfer == Transfer::Idle,
        )
    };
    assert_eq!(send(&page(ARM_S, 3, 0)), (Ok(Answer::Written), false));
    assert_eq!(send(&second), (Err(Refused::NotErased), true));
    // from the start, its sector is erased again
    assert_eq!(send(&second), (Ok(Answer::Written), false));
    assert_eq!(nor.bytes[..256], second[32..288]);
}

/// The longest file there is, shuffled, through the driver of the largest flash.
#[test]
fn longest_file_through_the_driver() {
    let mut r = Random(92);
    let n = 131_072;
    let mut order: Vec<u32> = (0..n).collect();
    r.shuffle(&mut order);
    let settings = proved_settings(&arm_only());
    let mut beside = Buffers::filled(0, 9);
    let mut driver = Failing {
        nor: Nor {
            bytes: vec![9; 33_554_432],
        },
        erases: 0,
        working: usize::MAX,
    };
    let mut transfer = Transfer::new();
    for (i, &k) in order.iter().enumerate() {
        let a = page(reference::DATA, n, k);
        let (_, mut beside) = beside.lend_beside();
        let told = proved::take_through(&settings, &mut transfer, &a, &mut driver, &mut beside);
        let last = i + 1 == n as usize;
        let wanted = if last {
            Answer::Completed
        } else {
            Answer::Written
        };
        assert_eq!(told.map(|outcome| outcome.answer), Ok(wanted));
    }
    assert_eq!(driver.erases, 8192);
    for k in 0..n {
        let a = page(reference::DATA, n, k);
        assert!(driver.nor.bytes[k as usize * 256..][..256] == a[32..288]);
    }
}
