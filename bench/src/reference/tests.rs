//! The worked examples of the documents.

use super::boxes::Boxes;
use super::element::{Colour, Element, Head, Level};
use super::log::LogRecord;
use super::machine::{Machine, RunFault};
use super::ports::{NoSuchPort, Ports};
use super::record::decode;
use super::refusal::Refusal;
use super::set::{HeadSet, InstructionSet, LevelSet, SetFault};
use super::sheet::{Sheet, SheetFault, Use};
use super::show::{Show, ShowFault};
use super::work::{Making, Scratch};
use crate::records::{self, Record, instruct, link, receive, restore, save, send};

fn levels(code: u8, args: &[u8]) -> Result<Vec<u8>, SetFault> {
    let args: Vec<Level> = args.iter().copied().map(Level).collect();
    let mut places = [Level(99); 4];
    let count = LevelSet.call(code, &args, &mut places)?;
    assert!(places[count..].iter().all(|place| *place == Level(99)));
    Ok(places[..count].iter().map(|level| level.0).collect())
}

/// Cells 0 to 2 and 4 to 7 are part 0's, cell 3 is swapped; part 0 sends to port 2 and receives from it.
fn making<S: InstructionSet>(set: S) -> Making<S> {
    let mut sheet = Sheet::new(8).unwrap();
    for cell in [0, 1, 2, 4, 5, 6, 7] {
        sheet.grant(cell, 0, 3).unwrap();
    }
    sheet.swap(3).unwrap();
    let mut ports = Ports::default();
    ports.set(2, 1, 1).unwrap();
    Making { set, sheet, ports }
}

fn level_cells(values: [u8; 8]) -> Vec<Level> {
    values.map(Level).to_vec()
}

/// The answers of a machine, which are also those of the boxes.
fn play(machine: &mut Machine<LevelSet>, commands: &[Record]) -> Vec<LogRecord> {
    let mut boxes = Boxes::new(machine.making().clone(), machine.cells().to_vec());
    let (mut args, mut results) = ([Level(0); 8], [Level(0); 4]);
    let mut scratch = Scratch { args: &mut args, results: &mut results };
    commands
        .iter()
        .zip(1..)
        .map(|(bytes, place)| {
            let answer = machine.command(place, bytes, &mut scratch);
            assert_eq!(answer, boxes.command(place, bytes, &mut scratch));
            answer
        })
        .collect()
}

fn single(bytes: &[u8]) -> (u8, u8) {
    let mut machine = Machine::new(making(LevelSet), level_cells([0; 8]));
    let (mut args, mut results) = ([Level(0); 8], [Level(0); 4]);
    let record = machine.command(9, bytes, &mut Scratch { args: &mut args, results: &mut results });
    assert_eq!((record.place, record.missed, record.count, record.words), (9, 0, 0, [0; 8]));
    (record.refusal, record.detail)
}

#[test]
fn level_codes() {
    assert_eq!(levels(3, &[128, 128]), Ok(vec![64]));
    assert_eq!(levels(4, &[11]), Ok(vec![0]));
    assert_eq!(levels(4, &[12]), Ok(vec![1]));
    assert_eq!(levels(5, &[0, 255, 128]), Ok(vec![128]));
    assert_eq!(levels(6, &[255]), Ok(vec![255]));
    assert_eq!(levels(2, &[3, 9, 4]), Ok(vec![9]));
    assert_eq!(levels(1, &[]), Ok(vec![]));
    for (code, least, most) in [(1, 0, 4), (2, 1, 8), (3, 2, 2), (4, 1, 1), (5, 3, 3), (6, 1, 1)] {
        for count in 0..=8 {
            let fits = (least..=most).contains(&count);
            let want = if fits { None } else { Some(SetFault::WrongCount) };
            assert_eq!(levels(code, &vec![7; count]).err(), want, "code {code} of {count}");
        }
    }
    for code in [0, 7, 255] {
        assert_eq!(levels(code, &[1]), Err(SetFault::UnknownCode));
    }
    assert_eq!(LevelSet.call(9, &[], &mut [Level(0); 3]), Err(SetFault::FewPlaces));
}

#[test]
fn level_laws() {
    for a in 0..=255 {
        assert_eq!(levels(3, &[a, 255]), Ok(vec![a]));
        assert_eq!(levels(4, &[a]), levels(3, &[a, a]));
        for b in 0..=255 {
            assert!(levels(3, &[a, b]).unwrap()[0] <= a.min(b));
            assert_eq!(levels(5, &[a, b, 0]), Ok(vec![a]));
            assert_eq!(levels(5, &[a, b, 255]), Ok(vec![b]));
        }
    }
}

#[test]
fn head_codes() {
    let call = |code, args: &[Head]| {
        let mut places = [Head::NULL; 4];
        HeadSet.call(code, args, &mut places).map(|count| places[..count].to_vec())
    };
    let a = Head { pan: 40000, tilt: 1000, colour: Colour::Slot(3) };
    let b = Head { pan: 30000, tilt: 65000, colour: Colour::Mix { red: 255, green: 128, blue: 0 } };
    assert_eq!(call(1, &[a, b]), Ok(vec![a, b]));
    assert_eq!(call(2, &[a, b]), Ok(vec![Head { colour: b.colour, ..a }]));
    assert_eq!(call(3, &[a, b]), Ok(vec![Head { pan: 4464, tilt: 464, ..a }]));
    assert_eq!(call(4, &[a]), Ok(vec![Head { pan: 7232, tilt: 64535, ..a }]));
    assert_eq!(call(4, &[a, b]), Err(SetFault::WrongCount));
    assert_eq!(call(5, &[a]), Err(SetFault::UnknownCode));
}

#[test]
fn packing() {
    assert_eq!(Level(200).pack(), [200, 0]);
    assert_eq!(Level::unpack([0xffff_ff07, 5]), Level(7));
    let head = |colour| Head { pan: 40000, tilt: 1000, colour };
    assert_eq!(head(Colour::Open).pack(), [40000 * 65536 + 1000, 0]);
    assert_eq!(head(Colour::Slot(3)).pack()[1], 0x0100_0003);
    assert_eq!(head(Colour::Mix { red: 255, green: 128, blue: 1 }).pack()[1], 0x02ff_8001);
    assert_eq!(Head::unpack([0, 0x01ff_ff09]).colour, Colour::Slot(9));
    assert_eq!(Head::unpack([0, 0x0300_0009]), Head::NULL);
    for colour in [Colour::Open, Colour::Slot(255), Colour::Mix { red: 1, green: 2, blue: 3 }] {
        assert_eq!(Head::unpack(head(colour).pack()), head(colour));
    }
    assert_eq!(Head::NULL.pack(), [0, 0]);
}

#[test]
fn nine_messages() {
    let mut machine = Machine::new(making(LevelSet), level_cells([0; 8]));
    let mut commands = vec![restore(0)];
    for _ in 1..=9 {
        commands.push(instruct(0, 6, &[0], &[0]));
        commands.push(send(0, 2, &[0]));
    }
    commands.extend([receive(0, 2, &[1]), receive(0, 2, &[1])]);
    let log = play(&mut machine, &commands);
    let (first, second) = (log[19], log[20]);
    assert_eq!((first.words[0], first.missed, first.count), (2, 1, 1));
    assert_eq!((second.words[0], second.missed, second.count), (3, 0, 1));
    assert_eq!(machine.cells()[1], Level(3));
}

#[test]
fn missed_stops_at_255() {
    let mut machine = Machine::new(making(LevelSet), level_cells([0; 8]));
    let mut commands = vec![restore(0)];
    commands.extend(vec![send(0, 2, &[]); 300]);
    commands.push(receive(0, 2, &[]));
    assert_eq!(play(&mut machine, &commands).last().unwrap().missed, 255);
}

#[test]
fn chains() {
    let file = |indices: &[u16]| {
        let mut records = vec![[0; 32]; indices.len()];
        for (record, next) in records.iter_mut().zip(indices) {
            link(record, *next);
        }
        records.concat()
    };
    assert_eq!(Show::open(&file(&[1, 2, 1])).unwrap_err(), ShowFault::Endless);
    assert_eq!(Show::open(&file(&[1, 2, 3])).unwrap_err(), ShowFault::Leaves(2));
    assert_eq!(Show::open(&file(&[3, 2, 3])).unwrap_err(), ShowFault::Leaves(0));
    assert_eq!(Show::open(&file(&[0, 9, 9])).unwrap().commands(), 0);
    let order: Vec<u32> = Show::open(&file(&[2, 0, 1])).unwrap().chain().map(|(place, _)| place).collect();
    assert_eq!(order, [2, 1]);
    let mut dirty = file(&[1, 2, 1]);
    dirty[31] = 1;
    assert_eq!(Show::open(&dirty).unwrap_err(), ShowFault::Head);
}

#[test]
fn lengths() {
    assert_eq!(Show::open(&vec![0; 65536]).unwrap().commands(), 0);
    let full = records::show(&vec![restore(0); 2047]);
    assert_eq!((full.len(), Show::open(&full).unwrap().commands()), (65536, 2047));
    for length in [0, 1, 31, 33, 65537, 65568] {
        assert_eq!(Show::open(&vec![0; length]).unwrap_err(), ShowFault::Length, "{length}");
    }
}

#[test]
fn swapped_cell_counts_apart() {
    let mut machine = Machine::new(making(LevelSet), level_cells([0, 0, 0, 77, 0, 0, 0, 0]));
    let turn = |part| [restore(part), instruct(part, 6, &[3], &[3]), save(part)];
    let log = play(&mut machine, &[turn(0), turn(1), turn(0)].concat());
    let counted: Vec<u32> = log.iter().filter(|record| record.kind == 3).map(|record| record.words[0]).collect();
    assert_eq!(counted, [1, 1, 2]);
}

#[test]
fn earlier_place_counts() {
    let mut machine = Machine::new(making(LevelSet), level_cells([1, 7, 9, 0, 5, 6, 0, 0]));
    let log = play(
        &mut machine,
        &[restore(0), instruct(0, 1, &[1, 2], &[0, 0]), instruct(0, 1, &[1, 2], &[4, 5, 2]), receive(0, 2, &[1])],
    );
    assert_eq!(machine.cells()[0], Level(7));
    assert_eq!(machine.cells()[4..6], [Level(7), Level(9)]);
    assert_eq!(machine.cells()[1..3], [Level(0), Level(0)]);
    assert_eq!((log[1].count, &log[1].words[..4]), (2, &[7, 0, 9, 0][..]));
    assert_eq!((log[3].count, log[3].words), (0, [0; 8]));
}

#[test]
fn longer_answer_than_results() {
    let mut machine = Machine::new(making(LevelSet), level_cells([1, 2, 3, 0, 4, 0, 0, 0]));
    let log = play(&mut machine, &[restore(0), instruct(0, 1, &[0, 1, 2, 4], &[7])]);
    assert_eq!((log[1].count, log[1].words), (4, [1, 0, 2, 0, 3, 0, 4, 0]));
    assert_eq!(machine.cells()[5..], [Level(0), Level(0), Level(1)]);
}

#[test]
fn shapes() {
    let broken = |mut record: Record, byte: usize, value: u8| {
        record[byte] = value;
        decode(&record)
    };
    let work = instruct(0, 1, &[1], &[1]);
    assert_eq!(broken(work, 6, 9), Err(Refusal::Shape(6)));
    assert_eq!(broken(work, 7, 5), Err(Refusal::Shape(7)));
    assert_eq!(broken(work, 5, 1), Err(Refusal::Shape(5)));
    assert_eq!(broken(work, 10, 1), Err(Refusal::Shape(10)));
    assert_eq!(broken(work, 31, 1), Err(Refusal::Shape(31)));
    assert_eq!(broken(work, 26, 1), Err(Refusal::Shape(26)));
    assert_eq!(broken(restore(0), 4, 1), Err(Refusal::Shape(4)));
    assert_eq!(broken(save(0), 7, 1), Err(Refusal::Shape(7)));
    assert_eq!(broken(send(0, 2, &[1, 1, 1, 1]), 6, 5), Err(Refusal::Shape(6)));
    assert_eq!(broken(send(0, 2, &[1, 1, 1, 1]), 16, 5), Err(Refusal::Shape(16)));
    assert_eq!(broken(send(0, 2, &[1]), 7, 1), Err(Refusal::Shape(7)));
    assert_eq!(broken(receive(0, 2, &[1]), 6, 1), Err(Refusal::Shape(6)));
    assert_eq!(broken(receive(0, 2, &[1]), 8, 1), Err(Refusal::Shape(8)));
    for kind in [0, 6, 255] {
        assert_eq!(broken(work, 3, kind), Err(Refusal::Kind));
    }
    assert!(broken(work, 4, 255).is_ok() && broken(send(0, 2, &[]), 5, 255).is_ok());
}

#[test]
fn refusals_in_order() {
    assert_eq!(single(&[0; 31]), (1, 0));
    assert_eq!(single(&[0; 32]), (7, 3));
    let mut nine = instruct(0, 1, &[], &[]);
    nine[6] = 9;
    assert_eq!(single(&nine), (8, 6));
    assert_eq!(single(&restore(8)), (9, 2));
    assert_eq!(single(&save(0)), (10, 0));

    let mut machine = Machine::new(making(LevelSet), level_cells([0; 8]));
    let log = play(
        &mut machine,
        &[
            restore(0),
            restore(0),
            send(0, 16, &[]),
            send(0, 1, &[8]),
            send(0, 2, &[0, 8]),
            instruct(0, 9, &[0, 1], &[3, 65535]),
            instruct(0, 9, &[0], &[]),
            instruct(0, 3, &[0], &[]),
            save(1),
            save(0),
        ],
    );
    let told: Vec<(u8, u8)> = log.iter().map(|record| (record.refusal, record.detail)).collect();
    assert_eq!(told, [(0, 0), (10, 0), (11, 5), (11, 5), (12, 1), (12, 9), (13, 1), (13, 2), (10, 0), (0, 0)]);
}

#[test]
fn scratch_is_left_null() {
    let mut machine = Machine::new(making(LevelSet), level_cells([0; 8]));
    let mut try_with = |args_len: usize, results_len: usize, bytes: &[u8]| {
        let (mut args, mut results) = (vec![Level(5); args_len], vec![Level(5); results_len]);
        let record = machine.command(0, bytes, &mut Scratch { args: &mut args, results: &mut results });
        let null = args.iter().chain(&results).all(|level| *level == Level(0));
        let same = args.iter().chain(&results).all(|level| *level == Level(5));
        (record.refusal, null, same)
    };
    assert_eq!(try_with(10, 6, &save(0)), (10, true, false));
    assert_eq!(try_with(10, 6, &[]), (1, true, false));
    assert_eq!(try_with(7, 4, &[]), (1, false, true));
    assert_eq!(try_with(8, 3, &save(0)), (6, false, true));
}

#[test]
fn runs() {
    let mut machine = Machine::new(making(LevelSet), level_cells([0; 8]));
    let file = records::show(&[restore(0), save(0)]);
    let show = Show::open(&file).unwrap();
    let empty = [0; 32];
    let mut log = [LogRecord { place: 77, ..LogRecord::default() }; 3];
    let untouched = log;
    let mut args = [Level(5); 8];
    let mut scratch = Scratch { args: &mut args, results: &mut [Level(5); 3] };
    assert_eq!(machine.run(&show, &mut log[..1], &mut scratch), Err(RunFault::Scratch));
    assert_eq!(machine.run(&Show::open(&empty).unwrap(), &mut log, &mut scratch), Err(RunFault::Scratch));
    let mut scratch = Scratch { args: &mut args, results: &mut [Level(5); 4] };
    assert_eq!(machine.run(&show, &mut log[..1], &mut scratch), Err(RunFault::Log));
    assert_eq!(machine.run(&Show::open(&empty).unwrap(), &mut log, &mut scratch), Ok(0));
    assert_eq!(log, untouched);
    assert_eq!(scratch.args[0], Level(5));
    assert_eq!(machine.run(&show, &mut log, &mut scratch), Ok(2));
    assert_eq!((log[0].place, log[1].place, log[2].place), (1, 2, 77));
    assert!(scratch.args.iter().chain(&*scratch.results).all(|level| *level == Level(0)));
}

#[test]
fn misfit() {
    let mut machine = Machine::new(making(LevelSet), vec![Level(0); 7]);
    assert!(!machine.fits());
    let file = records::show(&[restore(0), [9; 32]]);
    let mut log = [LogRecord::default(); 2];
    assert_eq!(machine.run_alone(&Show::open(&file).unwrap(), &mut log), Ok(2));
    assert!(log.iter().all(|record| (record.refusal, record.detail) == (19, 0)));
    assert_eq!((log[1].part, log[1].kind), (9, 9));
}

#[test]
fn sheets() {
    assert!(Sheet::new(1).is_ok() && Sheet::new(512).is_ok());
    assert_eq!(Sheet::new(0).unwrap_err(), SheetFault::Size);
    assert_eq!(Sheet::new(513).unwrap_err(), SheetFault::Size);

    let mut sheet = Sheet::new(20).unwrap();
    assert_eq!(sheet.grant(20, 9, 9), Err(SheetFault::Cell));
    assert_eq!(sheet.grant(0, 8, 9), Err(SheetFault::Part));
    assert_eq!(sheet.grant(0, 7, 4), Err(SheetFault::Mode));
    assert_eq!(sheet.grant(0, 7, 1), Ok(()));
    assert!(sheet.may_touch(0, 7, Use::Read) && !sheet.may_touch(0, 7, Use::Write));
    assert_eq!(sheet.grant(0, 7, 2), Ok(()));
    assert!(sheet.may_touch(0, 7, Use::Read) && sheet.may_touch(0, 7, Use::Write));
    assert_eq!(sheet.grant(0, 6, 1), Err(SheetFault::Taken));
    assert_eq!(sheet.swap(20), Err(SheetFault::Cell));
    assert_eq!(sheet.swap(0), Err(SheetFault::Taken));
    for cell in 1..=16 {
        assert_eq!(sheet.swap(cell), Ok(()));
    }
    assert_eq!(sheet.swap(1), Err(SheetFault::Taken));
    assert_eq!(sheet.swap(17), Err(SheetFault::Swaps));
    assert_eq!(sheet.grant(1, 0, 1), Err(SheetFault::Taken));
    assert!(sheet.may_touch(16, 0, Use::Write) && !sheet.may_touch(17, 0, Use::Read));
    assert!(!sheet.may_touch(16, 8, Use::Read) && !sheet.may_touch(20, 0, Use::Read));
}

#[test]
fn upstream() {
    let mut ports = Ports::default();
    assert_eq!(ports.set(16, 1, 1), Err(NoSuchPort));
    ports.set(0, 0b0000_0010, 0b0000_0001).unwrap();
    ports.set(15, 0b0000_0100, 0b1000_0010).unwrap();
    assert_eq!(ports.upstream(0), 0b1000_0111);
    assert_eq!(ports.upstream(1), 0b1000_0110);
    assert_eq!(ports.upstream(2), 0b0000_0100);
    assert_eq!(ports.upstream(7), 0b1000_0110);
    assert_eq!(ports.upstream(8), 0);
    assert!(ports.may_send(0, 1) && !ports.may_send(0, 0) && !ports.may_send(16, 1) && !ports.may_send(0, 9));
}
