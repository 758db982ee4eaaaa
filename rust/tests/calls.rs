//! The crate's calls, with some of 01's bench cases.

use galdnyrr::{Area, Batch, Cause, Columns, Context, Entry, FileId, Index, Mark, Pairs, Queue, Records, Rows};

fn file(seq: u64) -> FileId {
    FileId { queue: Queue::Append, seq }
}

fn entries(first: u64, last: u64, seq: u64) -> Vec<Entry> {
    (first..=last).map(|i| Entry { len: 10, ..Entry::at(i, file(seq)) }).collect()
}

fn replayed(batches: &[Batch]) -> Context {
    let mut run = Context::new(Queue::Append);
    batches.iter().for_each(|b| run.replay(b).unwrap());
    run
}

fn batch() -> Batch {
    Batch::new(Queue::Append, 1)
}

#[test]
fn areas_go_to_other_threads() {
    fn is_send_and_sync<T: Send + Sync>() {}
    is_send_and_sync::<Area>();
    is_send_and_sync::<Context>();
}

#[test]
fn a_refused_batch_leaves_everything() {
    let mut b = batch();
    b.entries(7, &entries(5, 8, 1));
    let mut run = replayed(&[b]);
    let mut b = batch();
    b.put(9, b"k", b"v").entries(7, &entries(10, 10, 1));
    let refusal = run.replay(&b).unwrap_err();
    assert_eq!((refusal.cause(), refusal.place()), (Some(Cause::AboveLast), Some(1)));
    let absent = run.area().first_index(9).unwrap_err();
    assert_eq!((absent.cause(), absent.place()), (Some(Cause::GroupAbsent), None));
    assert_eq!(run.area().last_index(7), Ok(Some(8)));
}

#[test]
fn fetches_of_bench_case_5() {
    let mut b = batch();
    b.entries(7, &entries(5, 8, 1));
    let run = replayed(&[b]);
    let mut list = Records::with_room(64);
    let mut fetch = |begin, end| {
        let got = run.area().fetch_entries_to(7, begin, end, None, &mut list);
        got.map(|()| list.iter().map(|e| e.index).collect::<Vec<_>>()).map_err(|r| r.number())
    };
    assert_eq!(fetch(7, 7), Ok(vec![]));
    assert_eq!(fetch(4, 6), Err(11));
    assert_eq!(fetch(8, 9), Ok(vec![8]));
    assert_eq!(fetch(8, 10), Err(12));
}

#[test]
fn a_list_that_is_too_short_stays() {
    let mut b = batch();
    b.entries(7, &entries(5, 8, 1));
    let run = replayed(&[b]);
    let mut list = Records::with_room(3);
    let refusal = run.area().fetch_entries_to(7, 5, 9, None, &mut list).unwrap_err();
    assert_eq!(refusal.cause(), Some(Cause::ListTooShort));
    assert!(list.is_empty() && list.rows().iter().all(|row| row.iter().all(|n| *n == 0)));
}

#[test]
fn eight_slices_hold_the_same_records() {
    let mut b = batch();
    b.entries(7, &entries(5, 8, 1));
    let run = replayed(&[b]);
    let (mut list, mut columns) = (Records::with_room(4), Columns::with_room(4));
    run.area().fetch_entries_to(7, 6, 9, None, &mut list).unwrap();
    run.area().fetch_columns_to(7, 6, 9, None, &mut columns).unwrap();
    assert_eq!(columns.columns()[0], [6, 7, 8, 0]);
    let told: Vec<_> = (0..4).map(|i| columns.get(i)).collect();
    assert_eq!(told, (0..4).map(|i| list.get(i)).collect::<Vec<_>>());
}

#[test]
fn values_and_scans() {
    let mut b = batch();
    b.put(7, b"b", b"2").put(7, b"a", b"").put(7, b"c", &[9; 32]).delete(7, b"b");
    let run = replayed(&[b]);
    let mut out = [0; 32];
    assert_eq!(run.area().get(7, b"a", &mut out), Ok(Some(&b""[..])));
    assert_eq!(run.area().get(7, b"b", &mut out), Ok(None));
    assert_eq!(run.area().get(7, b"c", &mut out), Ok(Some(&[9; 32][..])));
    assert_eq!(run.area().get(7, b"c", &mut out[..31]).unwrap_err().number(), 19);
    let mut keys = Pairs::with_room(16);
    run.area().scan(7, Some(b"b"), None, true, 5, &mut keys).unwrap();
    assert_eq!(keys.iter().map(|(k, _)| k).collect::<Vec<_>>(), [b"c"]);
    assert_eq!(run.area().scan(7, None, None, false, 0, &mut keys).unwrap_err().number(), 10);
}

#[test]
fn any_content_of_a_batch_is_answered() {
    let mut area = Area::fresh(Queue::Append);
    let cut = [7, 1, 0, 0];
    let refusal = area.replay(file(1), Rows { items: &cut, entries: &[], bytes: &[] }).unwrap_err();
    assert_eq!((refusal.number(), refusal.place()), (3, Some(0)));
    let past = [7, 3, u64::MAX, 2, 1, 0, 0, 0, 1];
    let refusal = area.replay(file(1), Rows { items: &past, entries: &[], bytes: &[] }).unwrap_err();
    assert_eq!((refusal.number(), refusal.place()), (3, Some(0)));
    assert_eq!(area.append(file(1), batch().rows()).unwrap_err().cause(), Some(Cause::WrongKind));
}

#[test]
fn groups_and_live_counts() {
    let mut b = batch();
    b.entries(9, &entries(1, 3, 1)).put(7, b"k", b"v").clean(8);
    let run = replayed(&[b]);
    let mut list = [0; 8];
    assert_eq!(run.area().group_numbers(&mut list), Ok(&[7, 9][..]));
    assert_eq!(run.area().group_numbers(&mut list[..1]).unwrap_err().number(), 19);
    assert_eq!(run.area().live_entries(Queue::Append), 4);
    assert_eq!(run.area().live_entries(Queue::Rewrite), 0);
    assert!(!run.area().is_empty() && Context::new(Queue::Rewrite).area().is_empty());
}

fn rewritten(first: u64, last: u64, seq: u64) -> Vec<Entry> {
    let file = FileId { queue: Queue::Rewrite, seq };
    (first..=last).map(|i| Entry { len: 10, ..Entry::at(i, file) }).collect()
}

#[test]
fn an_atomic_group_is_carried_out_as_a_whole() {
    let mut run = Context::new(Queue::Rewrite);
    let mut b = Batch::new(Queue::Rewrite, 3);
    b.mark(7, Mark::Begin).entries(7, &rewritten(1, 3, 3));
    run.replay(&b).unwrap();
    assert_eq!(run.last_index(7).unwrap_err().cause(), Some(Cause::GroupAbsent));

    b.restart(Queue::Rewrite, 2);
    b.mark(7, Mark::End).entries(7, &rewritten(4, 4, 2));
    let refusal = run.replay(&b).unwrap_err();
    assert_eq!((refusal.cause(), refusal.place()), (Some(Cause::FilesGoBack), None));

    b.restart(Queue::Rewrite, 4);
    b.mark(7, Mark::End).entries(7, &rewritten(4, 5, 4));
    run.replay(&b).unwrap();
    assert_eq!((run.first_index(7), run.last_index(7)), (Ok(Some(1)), Ok(Some(5))));
}

#[test]
fn a_join_makes_the_index() {
    let mut b = batch();
    b.clean(9).entries(7, &entries(1, 3, 1));
    let run = replayed(&[b]);
    let (_, refusal) = run.clone().join(&run).err().unwrap();
    assert_eq!(refusal.cause(), Some(Cause::WrongKind));
    let mut index = Context::new(Queue::Rewrite).join(&run).ok().unwrap();
    assert_eq!((index.take_cleaned_region_logs(), index.take_cleaned_region_logs()), (vec![9], vec![]));

    let mut b = batch();
    b.entries(7, &entries(5, 5, 2));
    assert_eq!(index.append(&b).unwrap_err().cause(), Some(Cause::AboveLast));
    b.clear();
    b.entries(7, &entries(4, 4, 2));
    index.append(&b).unwrap();
    let mut b = Batch::new(Queue::Rewrite, 1);
    b.entries(7, &rewritten(1, 2, 1));
    index.rewrite(Some(1), &b).unwrap();
    assert_eq!((index.last_index(7), index.rewrite_count(7)), (Ok(Some(4)), Ok(2)));
    assert!(Index::new().is_empty());
}

#[test]
fn runs_merged_are_one_pass() {
    let of = |first, last, seq| {
        let mut b = Batch::new(Queue::Append, seq);
        b.entries(7, &entries(first, last, seq));
        b
    };
    let batches = [of(1, 4, 1), of(3, 6, 2), of(7, 8, 3)];
    let whole = replayed(&batches);
    let mut older = replayed(&batches[..1]);
    older.merge(&replayed(&batches[1..])).unwrap();
    let fetched = |c: &Context| {
        let mut list = Records::with_room(64);
        c.fetch_entries_to(7, 1, 9, None, &mut list).unwrap();
        list.iter().map(|e| (e.index, e.file.seq)).collect::<Vec<_>>()
    };
    assert_eq!(fetched(&older), fetched(&whole));
    assert_eq!(older.live_entries(Queue::Append), 8);
}

#[test]
fn a_refused_merge_leaves_both() {
    let mut b = batch();
    b.entries(7, &entries(1, 4, 1));
    let mut older = replayed(&[b]);
    let mut b = batch();
    b.entries(7, &entries(9, 9, 2));
    let newer = replayed(&[b]);
    assert_eq!(older.merge(&newer).unwrap_err().cause(), Some(Cause::AboveLast));
    assert_eq!(older.merge(&Context::new(Queue::Rewrite)).unwrap_err().cause(), Some(Cause::WrongKind));
    assert_eq!((older.last_index(7), newer.first_index(7)), (Ok(Some(4)), Ok(Some(9))));
}
