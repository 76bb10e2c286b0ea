//! What items are made of, and how that is read from a source and sent to a sink.

use crate::variables::*;

/// Where variables come from, one after another.
pub trait Source: Sized {
    type Run<'r>: Run
    where
        Self: 'r;

    /// The next variables, of 56 bits at most.
    fn run(&mut self) -> Option<Self::Run<'_>>;

    /// The number of NID_RADIO, which is longer than a run.
    fn radio(&mut self) -> Option<u64>;

    /// This many numbers of X_TEXT.
    fn text(&mut self, len: usize) -> Option<Vec<u8>>;

    /// The bits of a packet that is kept, as many as are left of it if its length is known.
    fn kept(&mut self, len: usize) -> Option<Kept>;

    /// One number by itself.
    #[inline(always)]
    fn take<V: Variable, N: Number>(&mut self, variable: V) -> Option<N> {
        let mut run = self.run()?;
        let number = run.take(variable)?;
        run.pass();
        Some(number)
    }

    /// This many things one after another.
    #[inline(always)]
    fn list<P: Part>(&mut self, count: usize) -> Option<Vec<P>> {
        let mut list = Vec::with_capacity(count);
        for _ in 0..count {
            list.push(P::read(self)?);
        }
        Some(list)
    }

    /// A thing, a count, and that many further ones.
    #[inline(always)]
    fn chain<P: Part>(&mut self) -> Option<Vec<P>> {
        let first = P::read(self)?;
        let further: u8 = self.take(N_ITER)?;
        let mut list = Vec::with_capacity(usize::from(further) + 1);
        list.push(first);
        for _ in 0..further {
            list.push(P::read(self)?);
        }
        Some(list)
    }
}

/// Variables of a source that aren't passed over yet.
pub trait Run: Sized {
    fn take<V: Variable, N: Number>(&mut self, variable: V) -> Option<N>;

    /// Passes over the variables that were taken.
    fn pass(self);

    /// What follows a flag if it is 1.
    #[inline(always)]
    fn when<V: Variable, T>(&mut self, flag: V, group: impl FnOnce(&mut Self) -> Option<T>) -> Option<Option<T>> {
        if self.take(flag)? {
            Some(Some(group(self)?))
        } else {
            Some(None)
        }
    }

    #[inline(always)]
    fn level<V: Variable>(&mut self, variable: V) -> Option<Level> {
        let level = self.take(variable)?;
        Some(Level { level, nid_ntc: if level == 1 { self.take(NID_NTC)? } else { 0 } })
    }
}

/// Where variables are sent to, one after another.
pub trait Sink {
    fn put<V: Variable>(&mut self, variable: V, number: impl Number);
}

/// Where the parts of an item are sent to, one after another, the variables between them.
pub trait Writer: Sink {
    /// Whether FILL is wanted before the header.
    const FILL_FIRST: bool = false;

    #[inline(always)]
    fn begin_telegram(&mut self, _fill: &impl KeptBits) {}
    /// What is between the header of a telegram and its packets.
    #[inline(always)]
    fn begin_packets(&mut self, _kind: Kind) {}
    #[inline(always)]
    fn end_telegram(&mut self, _fill: &impl KeptBits, _kind: Kind) {}
    /// A message up to its packets.
    #[inline(always)]
    fn begin_message(&mut self, _nid: u8, _length: u16, _start: &Start, _kind: Kind) {}
    #[inline(always)]
    fn end_message(&mut self, _padding: &Padding) {}
    /// The whole of a message that is kept.
    #[inline(always)]
    fn kept_message(&mut self, _nid: u8, _length: u16, _data: &impl KeptBits, _kind: Kind) {}
    #[inline(always)]
    fn begin_packet(&mut self, _frame: &Frame) {}
    #[inline(always)]
    fn end_packet(&mut self, _frame: &Frame) {}
    /// The whole of a packet that is kept.
    #[inline(always)]
    fn kept_packet(&mut self, _frame: &Frame, _data: &impl KeptBits) {}
    /// Sets a variable that is so many bits back, and was sent as zero.
    #[inline(always)]
    fn set<V: Variable>(&mut self, _back: usize, _variable: V, _number: usize) {}
}

/// What is read and sent as variables one after another.
pub trait Part: Sized {
    fn read(source: &mut impl Source) -> Option<Self>;
    fn send(&self, sink: &mut impl Sink);
}

/// Bits that are kept: 64 in a word, the first on top.
pub trait KeptBits {
    fn len(&self) -> usize;
    fn words(&self) -> impl Iterator<Item = u64>;
}

/// Those of a value, with zeros after the last.
pub struct Kept {
    pub words: Vec<u64>,
    pub len: usize,
}

impl KeptBits for Kept {
    #[inline(always)]
    fn len(&self) -> usize {
        self.len
    }
    #[inline(always)]
    fn words(&self) -> impl Iterator<Item = u64> {
        self.words.iter().copied()
    }
}

impl Kept {
    #[inline(always)]
    pub fn of(bits: &impl KeptBits) -> Kept {
        let len = bits.len();
        let mut words = Vec::with_capacity(len.div_ceil(64));
        for word in bits.words() {
            words.push(word);
        }
        if len % 64 > 0 {
            if let Some(last) = words.last_mut() {
                *last &= u64::MAX << (64 - len % 64);
            }
        }
        Kept { words, len }
    }
}

/// A struct of variables in the order of sending, of 56 bits at most.
macro_rules! part {
    ($name:ident { $($field:ident: $type:ty = $variable:ident),* }) => {
        pub struct $name {
            $($field: $type),*
        }

        impl Part for $name {
            #[inline(always)]
            fn read(source: &mut impl Source) -> Option<Self> {
                let mut run = source.run()?;
                let part = $name { $($field: run.take($variable)?),* };
                run.pass();
                Some(part)
            }
            #[inline(always)]
            fn send(&self, sink: &mut impl Sink) {
                $(sink.put($variable, self.$field);)*
            }
        }
    };
}

part!(Slope { d_gradient: u16 = D_GRADIENT, q_gdir: bool = Q_GDIR, g_a: u8 = G_A });
part!(ReportPlace { d_loc: u16 = D_LOC, q_lgtloc: bool = Q_LGTLOC });
part!(Condition { d_trackcond: u16 = D_TRACKCOND, l_trackcond: u16 = L_TRACKCOND, m_trackcond: u8 = M_TRACKCOND });
part!(Area {
    d_mamode: u16 = D_MAMODE,
    m_mamode: u8 = M_MAMODE,
    v_mamode: u8 = V_MAMODE,
    l_mamode: u16 = L_MAMODE,
    l_ackmamode: u16 = L_ACKMAMODE,
    q_mamode: bool = Q_MAMODE
});
part!(AuthorityRequest { t_mar: u8 = T_MAR, t_timeoutrqst: u16 = T_TIMEOUTRQST, t_cycrqst: u8 = T_CYCRQST });
part!(ReportTimes { q_scale: u8 = Q_SCALE, t_cycloc: u8 = T_CYCLOC, d_cycloc: u16 = D_CYCLOC, m_loc: u8 = M_LOC });
part!(Restriction {
    q_scale: u8 = Q_SCALE,
    nid_tsr: u8 = NID_TSR,
    d_tsr: u16 = D_TSR,
    l_tsr: u16 = L_TSR,
    q_front: bool = Q_FRONT,
    v_tsr: u8 = V_TSR
});
part!(Slowdown { q_gdir: bool = Q_GDIR, g_tsr: u8 = G_TSR });
part!(Reposition { q_scale: u8 = Q_SCALE, l_section: u16 = L_SECTION });
part!(Transition { q_scale: u8 = Q_SCALE, d_rbctr: u16 = D_RBCTR });
part!(HeaderNumbers {
    q_updown: bool = Q_UPDOWN,
    m_version: u8 = M_VERSION,
    q_media: bool = Q_MEDIA,
    n_pig: u8 = N_PIG,
    n_total: u8 = N_TOTAL,
    m_dup: u8 = M_DUP,
    m_mcount: u8 = M_MCOUNT,
    nid_c: u16 = NID_C,
    nid_bg: u16 = NID_BG,
    q_link: bool = Q_LINK
});

impl HeaderNumbers {
    /// A header of a known version.
    #[inline(always)]
    pub fn known(source: &mut impl Source) -> Option<HeaderNumbers> {
        HeaderNumbers::read(source).filter(|header| matches!(header.m_version, 32 | 33))
    }
}

/// A balise group, with its country or region if that differs.
pub struct Group {
    nid_c: Option<u16>,
    nid_bg: u16,
}

impl Group {
    #[inline(always)]
    pub fn take(run: &mut impl Run) -> Option<Self> {
        Some(Group { nid_c: run.when(Q_NEWCOUNTRY, |run| run.take(NID_C))?, nid_bg: run.take(NID_BG)? })
    }
}

impl Part for Group {
    #[inline(always)]
    fn read(source: &mut impl Source) -> Option<Self> {
        let mut run = source.run()?;
        let group = Group::take(&mut run)?;
        run.pass();
        Some(group)
    }
    #[inline(always)]
    fn send(&self, sink: &mut impl Sink) {
        sink.put(Q_NEWCOUNTRY, self.nid_c.is_some());
        if let Some(nid_c) = self.nid_c {
            sink.put(NID_C, nid_c);
        }
        sink.put(NID_BG, self.nid_bg);
    }
}

pub struct Link {
    d_link: u16,
    group: Group,
    q_linkorientation: bool,
    q_linkreaction: u8,
    q_locacc: u8,
}

impl Part for Link {
    #[inline(always)]
    fn read(source: &mut impl Source) -> Option<Self> {
        let mut run = source.run()?;
        let link = Link {
            d_link: run.take(D_LINK)?,
            group: Group::take(&mut run)?,
            q_linkorientation: run.take(Q_LINKORIENTATION)?,
            q_linkreaction: run.take(Q_LINKREACTION)?,
            q_locacc: run.take(Q_LOCACC)?,
        };
        run.pass();
        Some(link)
    }
    #[inline(always)]
    fn send(&self, sink: &mut impl Sink) {
        sink.put(D_LINK, self.d_link);
        self.group.send(sink);
        sink.put(Q_LINKORIENTATION, self.q_linkorientation);
        sink.put(Q_LINKREACTION, self.q_linkreaction);
        sink.put(Q_LOCACC, self.q_locacc);
    }
}

pub struct Difference {
    q_diff: u8,
    category: u8,
    v_diff: u8,
}

impl Part for Difference {
    #[inline(always)]
    fn read(source: &mut impl Source) -> Option<Self> {
        let mut run = source.run()?;
        let q_diff = run.take(Q_DIFF)?;
        let category = if q_diff == 0 { run.take(NC_CDDIFF)? } else { run.take(NC_DIFF)? };
        let difference = Difference { q_diff, category, v_diff: run.take(V_DIFF)? };
        run.pass();
        Some(difference)
    }
    #[inline(always)]
    fn send(&self, sink: &mut impl Sink) {
        sink.put(Q_DIFF, self.q_diff);
        if self.q_diff == 0 {
            sink.put(NC_CDDIFF, self.category);
        } else {
            sink.put(NC_DIFF, self.category);
        }
        sink.put(V_DIFF, self.v_diff);
    }
}

pub struct Speed {
    d_static: u16,
    v_static: u8,
    q_front: bool,
    differences: Vec<Difference>,
}

impl Part for Speed {
    #[inline(always)]
    fn read(source: &mut impl Source) -> Option<Self> {
        let mut run = source.run()?;
        let d_static = run.take(D_STATIC)?;
        let v_static = run.take(V_STATIC)?;
        let q_front = run.take(Q_FRONT)?;
        let count: u8 = run.take(N_ITER)?;
        run.pass();
        Some(Speed { d_static, v_static, q_front, differences: source.list(count.into())? })
    }
    #[inline(always)]
    fn send(&self, sink: &mut impl Sink) {
        sink.put(D_STATIC, self.d_static);
        sink.put(V_STATIC, self.v_static);
        sink.put(Q_FRONT, self.q_front);
        send_list(&self.differences, sink);
    }
}

pub struct Timer {
    time: u16,
    place: u16,
}

impl Timer {
    #[inline(always)]
    pub fn take<F: Variable, T: Variable, D: Variable>(
        run: &mut impl Run,
        flag: F,
        time: T,
        place: D,
    ) -> Option<Option<Self>> {
        run.when(flag, |run| Some(Timer { time: run.take(time)?, place: run.take(place)? }))
    }

    #[inline(always)]
    pub fn send<F: Variable, T: Variable, D: Variable, S: Sink>(
        timer: &Option<Self>,
        sink: &mut S,
        flag: F,
        time: T,
        place: D,
    ) {
        sink.put(flag, timer.is_some());
        if let Some(timer) = timer {
            sink.put(time, timer.time);
            sink.put(place, timer.place);
        }
    }
}

pub struct Section {
    length: u16,
    timer: Option<Timer>,
}

impl Part for Section {
    #[inline(always)]
    fn read(source: &mut impl Source) -> Option<Self> {
        let mut run = source.run()?;
        let section = Section {
            length: run.take(L_SECTION)?,
            timer: Timer::take(&mut run, Q_SECTIONTIMER, T_SECTIONTIMER, D_SECTIONTIMERSTOPLOC)?,
        };
        run.pass();
        Some(section)
    }
    #[inline(always)]
    fn send(&self, sink: &mut impl Sink) {
        sink.put(L_SECTION, self.length);
        Timer::send(&self.timer, sink, Q_SECTIONTIMER, T_SECTIONTIMER, D_SECTIONTIMERSTOPLOC);
    }
}

pub struct Overlap {
    d_startol: u16,
    t_ol: u16,
    d_ol: u16,
    v_releaseol: u8,
}

pub struct Authority {
    sections: Vec<Section>,
    l_endsection: u16,
    section_timer: Option<Timer>,
    end_timer: Option<Timer>,
    danger_point: Option<(u16, u8)>,
    overlap: Option<Overlap>,
}

impl Part for Authority {
    #[inline(always)]
    fn read(source: &mut impl Source) -> Option<Self> {
        let count: u8 = source.take(N_ITER)?;
        let sections = source.list(count.into())?;
        let mut run = source.run()?;
        let l_endsection = run.take(L_ENDSECTION)?;
        let section_timer = Timer::take(&mut run, Q_SECTIONTIMER, T_SECTIONTIMER, D_SECTIONTIMERSTOPLOC)?;
        run.pass();
        let mut run = source.run()?;
        let end_timer = Timer::take(&mut run, Q_ENDTIMER, T_ENDTIMER, D_ENDTIMERSTARTLOC)?;
        let danger_point = run.when(Q_DANGERPOINT, |run| Some((run.take(D_DP)?, run.take(V_RELEASEDP)?)))?;
        let has_overlap = run.take(Q_OVERLAP)?;
        run.pass();
        let mut overlap = None;
        if has_overlap {
            let mut run = source.run()?;
            overlap = Some(Overlap {
                d_startol: run.take(D_STARTOL)?,
                t_ol: run.take(T_OL)?,
                d_ol: run.take(D_OL)?,
                v_releaseol: run.take(V_RELEASEOL)?,
            });
            run.pass();
        }
        Some(Authority { sections, l_endsection, section_timer, end_timer, danger_point, overlap })
    }
    #[inline(always)]
    fn send(&self, sink: &mut impl Sink) {
        send_list(&self.sections, sink);
        sink.put(L_ENDSECTION, self.l_endsection);
        Timer::send(&self.section_timer, sink, Q_SECTIONTIMER, T_SECTIONTIMER, D_SECTIONTIMERSTOPLOC);
        Timer::send(&self.end_timer, sink, Q_ENDTIMER, T_ENDTIMER, D_ENDTIMERSTARTLOC);
        sink.put(Q_DANGERPOINT, self.danger_point.is_some());
        if let Some((d_dp, v_releasedp)) = self.danger_point {
            sink.put(D_DP, d_dp);
            sink.put(V_RELEASEDP, v_releasedp);
        }
        sink.put(Q_OVERLAP, self.overlap.is_some());
        if let Some(overlap) = &self.overlap {
            sink.put(D_STARTOL, overlap.d_startol);
            sink.put(T_OL, overlap.t_ol);
            sink.put(D_OL, overlap.d_ol);
            sink.put(V_RELEASEOL, overlap.v_releaseol);
        }
    }
}

/// A level, with the national system if it is 1, else with 0.
#[derive(Clone, Copy)]
pub struct Level {
    level: u8,
    nid_ntc: u8,
}

impl Level {
    #[inline(always)]
    pub fn send_as<V: Variable>(self, variable: V, sink: &mut impl Sink) {
        sink.put(variable, self.level);
        if self.level == 1 {
            sink.put(NID_NTC, self.nid_ntc);
        }
    }
}

impl Part for Level {
    #[inline(always)]
    fn read(source: &mut impl Source) -> Option<Self> {
        let mut run = source.run()?;
        let level = run.level(M_LEVELTR)?;
        run.pass();
        Some(level)
    }
    #[inline(always)]
    fn send(&self, sink: &mut impl Sink) {
        self.send_as(M_LEVELTR, sink);
    }
}

pub struct LevelOrder {
    level: Level,
    l_ackleveltr: u16,
}

impl Part for LevelOrder {
    #[inline(always)]
    fn read(source: &mut impl Source) -> Option<Self> {
        let mut run = source.run()?;
        let order = LevelOrder { level: run.level(M_LEVELTR)?, l_ackleveltr: run.take(L_ACKLEVELTR)? };
        run.pass();
        Some(order)
    }
    #[inline(always)]
    fn send(&self, sink: &mut impl Sink) {
        self.level.send(sink);
        sink.put(L_ACKLEVELTR, self.l_ackleveltr);
    }
}

pub struct Session {
    nid_c: u16,
    nid_rbc: u16,
    nid_radio: u64,
    q_sleepsession: bool,
}

impl Part for Session {
    #[inline(always)]
    fn read(source: &mut impl Source) -> Option<Self> {
        let mut run = source.run()?;
        let (nid_c, nid_rbc) = (run.take(NID_C)?, run.take(NID_RBC)?);
        run.pass();
        let nid_radio = source.radio()?;
        let q_sleepsession = source.take(Q_SLEEPSESSION)?;
        Some(Session { nid_c, nid_rbc, nid_radio, q_sleepsession })
    }
    #[inline(always)]
    fn send(&self, sink: &mut impl Sink) {
        sink.put(NID_C, self.nid_c);
        sink.put(NID_RBC, self.nid_rbc);
        sink.put(NID_RADIO, self.nid_radio);
        sink.put(Q_SLEEPSESSION, self.q_sleepsession);
    }
}

/// Where a text is shown, at its start or at its end.
pub struct Shown {
    mode: u8,
    level: Level,
}

impl Shown {
    #[inline(always)]
    pub fn take(run: &mut impl Run) -> Option<Self> {
        Some(Shown { mode: run.take(M_MODETEXTDISPLAY)?, level: run.level(M_LEVELTEXTDISPLAY)? })
    }
    #[inline(always)]
    pub fn send(&self, sink: &mut impl Sink) {
        sink.put(M_MODETEXTDISPLAY, self.mode);
        self.level.send_as(M_LEVELTEXTDISPLAY, sink);
    }
}

pub struct Confirmation {
    q_conftextdisplay: bool,
    report: Option<(u8, u16, u16)>,
}

/// All of a text except what it says.
pub struct TextFrame {
    q_scale: u8,
    q_textclass: u8,
    q_textdisplay: bool,
    d_textdisplay: u16,
    start: Shown,
    l_textdisplay: u16,
    t_textdisplay: u16,
    end: Shown,
    q_textconfirm: u8,
    confirmation: Option<Confirmation>,
}

impl Part for TextFrame {
    #[inline(always)]
    fn read(source: &mut impl Source) -> Option<Self> {
        let mut run = source.run()?;
        let (q_scale, q_textclass) = (run.take(Q_SCALE)?, run.take(Q_TEXTCLASS)?);
        let (q_textdisplay, d_textdisplay) = (run.take(Q_TEXTDISPLAY)?, run.take(D_TEXTDISPLAY)?);
        let start = Shown::take(&mut run)?;
        run.pass();
        let mut run = source.run()?;
        let (l_textdisplay, t_textdisplay) = (run.take(L_TEXTDISPLAY)?, run.take(T_TEXTDISPLAY)?);
        let end = Shown::take(&mut run)?;
        let q_textconfirm = run.take(Q_TEXTCONFIRM)?;
        let mut confirmation = None;
        if q_textconfirm > 0 {
            let (q_conftextdisplay, is_reported) = (run.take(Q_CONFTEXTDISPLAY)?, run.take(Q_TEXTREPORT)?);
            run.pass();
            run = source.run()?;
            let mut report = None;
            if is_reported {
                report = Some((run.take(NID_TEXTMESSAGE)?, run.take(NID_C)?, run.take(NID_RBC)?));
            }
            confirmation = Some(Confirmation { q_conftextdisplay, report });
        }
        run.pass();
        Some(TextFrame {
            q_scale,
            q_textclass,
            q_textdisplay,
            d_textdisplay,
            start,
            l_textdisplay,
            t_textdisplay,
            end,
            q_textconfirm,
            confirmation,
        })
    }
    #[inline(always)]
    fn send(&self, sink: &mut impl Sink) {
        sink.put(Q_SCALE, self.q_scale);
        sink.put(Q_TEXTCLASS, self.q_textclass);
        sink.put(Q_TEXTDISPLAY, self.q_textdisplay);
        sink.put(D_TEXTDISPLAY, self.d_textdisplay);
        self.start.send(sink);
        sink.put(L_TEXTDISPLAY, self.l_textdisplay);
        sink.put(T_TEXTDISPLAY, self.t_textdisplay);
        self.end.send(sink);
        sink.put(Q_TEXTCONFIRM, self.q_textconfirm);
        if let Some(confirmation) = &self.confirmation {
            sink.put(Q_CONFTEXTDISPLAY, confirmation.q_conftextdisplay);
            sink.put(Q_TEXTREPORT, confirmation.report.is_some());
            if let Some((nid_textmessage, nid_c, nid_rbc)) = confirmation.report {
                sink.put(NID_TEXTMESSAGE, nid_textmessage);
                sink.put(NID_C, nid_c);
                sink.put(NID_RBC, nid_rbc);
            }
        }
    }
}

/// Where a train is, and what it does.
pub struct Located {
    q_scale: u8,
    nid_lrbg: u32,
    nid_prvlrbg: Option<u32>,
    d_lrbg: u16,
    q_dirlrbg: u8,
    q_dlrbg: u8,
    l_doubtover: u16,
    l_doubtunder: u16,
    q_length: u8,
    l_trainint: u16,
    v_train: u8,
    q_dirtrain: u8,
    m_mode: u8,
    level: Level,
}

impl Located {
    #[inline(always)]
    pub fn read(source: &mut impl Source, has_previous: bool) -> Option<Self> {
        let mut run = source.run()?;
        let (q_scale, nid_lrbg) = (run.take(Q_SCALE)?, run.take(NID_LRBG)?);
        let nid_prvlrbg = if has_previous { Some(run.take(NID_PRVLRBG)?) } else { None };
        run.pass();
        let mut run = source.run()?;
        let (d_lrbg, q_dirlrbg, q_dlrbg) = (run.take(D_LRBG)?, run.take(Q_DIRLRBG)?, run.take(Q_DLRBG)?);
        let (l_doubtover, l_doubtunder) = (run.take(L_DOUBTOVER)?, run.take(L_DOUBTUNDER)?);
        let q_length = run.take(Q_LENGTH)?;
        run.pass();
        let mut run = source.run()?;
        let l_trainint = if matches!(q_length, 1 | 2) { run.take(L_TRAININT)? } else { 0 };
        let (v_train, q_dirtrain, m_mode) = (run.take(V_TRAIN)?, run.take(Q_DIRTRAIN)?, run.take(M_MODE)?);
        let level = run.level(M_LEVEL)?;
        run.pass();
        Some(Located {
            q_scale,
            nid_lrbg,
            nid_prvlrbg,
            d_lrbg,
            q_dirlrbg,
            q_dlrbg,
            l_doubtover,
            l_doubtunder,
            q_length,
            l_trainint,
            v_train,
            q_dirtrain,
            m_mode,
            level,
        })
    }
    #[inline(always)]
    pub fn send(&self, sink: &mut impl Sink) {
        sink.put(Q_SCALE, self.q_scale);
        sink.put(NID_LRBG, self.nid_lrbg);
        if let Some(nid_prvlrbg) = self.nid_prvlrbg {
            sink.put(NID_PRVLRBG, nid_prvlrbg);
        }
        sink.put(D_LRBG, self.d_lrbg);
        sink.put(Q_DIRLRBG, self.q_dirlrbg);
        sink.put(Q_DLRBG, self.q_dlrbg);
        sink.put(L_DOUBTOVER, self.l_doubtover);
        sink.put(L_DOUBTUNDER, self.l_doubtunder);
        sink.put(Q_LENGTH, self.q_length);
        if matches!(self.q_length, 1 | 2) {
            sink.put(L_TRAININT, self.l_trainint);
        }
        sink.put(V_TRAIN, self.v_train);
        sink.put(Q_DIRTRAIN, self.q_dirtrain);
        sink.put(M_MODE, self.m_mode);
        self.level.send_as(M_LEVEL, sink);
    }
}

#[inline(always)]
pub fn send_list<P: Part>(list: &[P], sink: &mut impl Sink) {
    sink.put(N_ITER, list.len() as u8);
    for part in list {
        part.send(sink);
    }
}

#[inline(always)]
pub fn send_chain<P: Part>(list: &[P], sink: &mut impl Sink) {
    if let [first, further @ ..] = list {
        first.send(sink);
        send_list(further, sink);
    }
}

// ---- Packets.

#[derive(Clone, Copy, PartialEq, Eq)]
pub enum Way {
    ToTrain,
    ToTrack,
}

impl Way {
    /// Whether a message may have packets of this number.
    #[inline(always)]
    pub fn has_packet(self, nid: u8) -> bool {
        self == Way::ToTrack || !matches!(nid, 0 | 255)
    }

    /// Whether a packet of this number is read by its row, and not kept.
    #[inline(always)]
    pub fn has_row(self, nid: u8) -> bool {
        match self {
            Way::ToTrain => matches!(
                nid,
                2 | 5 | 12 | 15 | 16 | 21 | 27 | 41 | 42 | 45 | 46 | 49 | 57 | 58 | 63..=66 | 68 | 72 | 76 | 80
                    | 131 | 132 | 135..=137 | 140 | 141 | 145 | 254
            ),
            Way::ToTrack => matches!(nid, 0 | 1 | 4 | 5),
        }
    }

    /// Whether messages of this number are typed.
    #[inline(always)]
    pub fn has_typed_message(self, nid: u8) -> bool {
        match self {
            Way::ToTrain => matches!(nid, 2 | 3 | 6 | 8 | 9 | 16 | 18 | 24 | 27 | 28 | 32 | 33 | 38..=41 | 43 | 45),
            Way::ToTrack => matches!(nid, 130 | 136..=138 | 146 | 150 | 155..=157 | 159),
        }
    }
}

/// What a packet begins with. To the track it has no direction; a marker has no length either.
pub struct Frame {
    pub nid: u8,
    pub dir: Option<u8>,
    pub length: Option<u16>,
}

impl Frame {
    pub const MARKER: Frame = Frame { nid: 0, dir: None, length: None };
}

/// A packet with its number, direction and length. To the track its direction isn't sent.
pub struct Packet {
    pub nid: u8,
    pub dir: u8,
    pub length: u16,
    pub body: Body,
}

/// What a packet says, packets of one row under one name.
pub enum Body {
    Marker(u8),
    Nothing,
    Version(u8),
    Linking(u8, Vec<Link>),
    Level1Authority { q_scale: u8, v_main: u8, v_loa: u8, t_loa: u16, authority: Authority },
    Level23Authority { q_scale: u8, v_loa: u8, t_loa: u16, authority: Authority },
    Reposition(Reposition),
    Gradient(u8, Vec<Slope>),
    SpeedProfile(u8, Vec<Speed>),
    LevelOrder(u8, u16, Vec<LevelOrder>),
    Session(bool, Session),
    Network(u32),
    ConditionalLevelOrder(Vec<Level>),
    Groups(Vec<Group>),
    AuthorityRequest(AuthorityRequest),
    Reports(ReportTimes, Vec<ReportPlace>),
    Restriction(Restriction),
    Revocation(u8),
    InitialStates(u8, u16),
    Conditions(u8, Vec<Condition>),
    PlainText(TextFrame, Vec<u8>),
    FixedText(TextFrame, u8),
    ModeProfile(u8, Vec<Area>),
    Transition(Transition, Session),
    Aspect(bool),
    Infill(Group),
    Stop(bool),
    RunningNumber(u32),
    Slowdown(Slowdown),
    Located(Located),
    Error(u8),
    Kept(Kept),
}

impl Body {
    /// What a packet of this number says; if it is kept, `rest` bits come.
    #[inline(never)]
    pub fn read(source: &mut impl Source, way: Way, nid: u8, rest: usize) -> Option<Body> {
        Body::read_inline(source, way, nid, rest)
    }

    #[inline(always)]
    pub fn read_inline(source: &mut impl Source, way: Way, nid: u8, rest: usize) -> Option<Body> {
        if way == Way::ToTrack {
            return Some(match nid {
                0 | 1 => Body::Located(Located::read(source, nid == 1)?),
                4 => Body::Error(source.take(M_ERROR)?),
                5 => Body::RunningNumber(source.take(NID_OPERATIONAL)?),
                _ => Body::Kept(source.kept(rest)?),
            });
        }
        Some(match nid {
            2 => Body::Version(source.take(M_VERSION)?),
            5 => Body::Linking(source.take(Q_SCALE)?, source.chain()?),
            12 => {
                let mut run = source.run()?;
                let (q_scale, v_main) = (run.take(Q_SCALE)?, run.take(V_MAIN)?);
                let (v_loa, t_loa) = (run.take(V_LOA)?, run.take(T_LOA)?);
                run.pass();
                Body::Level1Authority { q_scale, v_main, v_loa, t_loa, authority: Authority::read(source)? }
            }
            15 => {
                let mut run = source.run()?;
                let (q_scale, v_loa, t_loa) = (run.take(Q_SCALE)?, run.take(V_LOA)?, run.take(T_LOA)?);
                run.pass();
                Body::Level23Authority { q_scale, v_loa, t_loa, authority: Authority::read(source)? }
            }
            16 => Body::Reposition(Part::read(source)?),
            21 => Body::Gradient(source.take(Q_SCALE)?, source.chain()?),
            27 => Body::SpeedProfile(source.take(Q_SCALE)?, source.chain()?),
            41 => Body::LevelOrder(source.take(Q_SCALE)?, source.take(D_LEVELTR)?, source.chain()?),
            42 => Body::Session(source.take(Q_RBC)?, Part::read(source)?),
            45 => Body::Network(source.take(NID_MN)?),
            46 => Body::ConditionalLevelOrder(source.chain()?),
            49 | 63 => {
                let count: u8 = source.take(N_ITER)?;
                Body::Groups(source.list(count.into())?)
            }
            57 => Body::AuthorityRequest(Part::read(source)?),
            58 => {
                let times = Part::read(source)?;
                let count: u8 = source.take(N_ITER)?;
                Body::Reports(times, source.list(count.into())?)
            }
            64 | 135 | 145 | 254 => Body::Nothing,
            65 => Body::Restriction(Part::read(source)?),
            66 => Body::Revocation(source.take(NID_TSR)?),
            68 => {
                let q_scale = source.take(Q_SCALE)?;
                if source.take(Q_TRACKINIT)? {
                    Body::InitialStates(q_scale, source.take(D_TRACKINIT)?)
                } else {
                    Body::Conditions(q_scale, source.chain()?)
                }
            }
            72 => {
                let frame = Part::read(source)?;
                let len: u8 = source.take(L_TEXT)?;
                Body::PlainText(frame, source.text(len.into())?)
            }
            76 => Body::FixedText(Part::read(source)?, source.take(Q_TEXT)?),
            80 => Body::ModeProfile(source.take(Q_SCALE)?, source.chain()?),
            131 => Body::Transition(Part::read(source)?, Part::read(source)?),
            132 => Body::Aspect(source.take(Q_ASPECT)?),
            136 => Body::Infill(Part::read(source)?),
            137 => Body::Stop(source.take(Q_SRSTOP)?),
            140 => Body::RunningNumber(source.take(NID_OPERATIONAL)?),
            141 => Body::Slowdown(Part::read(source)?),
            _ => Body::Kept(source.kept(rest)?),
        })
    }

    /// Sends its variables; those of kept bits are the caller's.
    pub fn send(&self, sink: &mut impl Sink) {
        match self {
            Body::Nothing | Body::Kept(_) => {}
            Body::Marker(nid_vbcmk) => sink.put(NID_VBCMK, *nid_vbcmk),
            Body::Version(m_version) => sink.put(M_VERSION, *m_version),
            Body::Linking(q_scale, links) => {
                sink.put(Q_SCALE, *q_scale);
                send_chain(links, sink);
            }
            Body::Level1Authority { q_scale, v_main, v_loa, t_loa, authority } => {
                sink.put(Q_SCALE, *q_scale);
                sink.put(V_MAIN, *v_main);
                sink.put(V_LOA, *v_loa);
                sink.put(T_LOA, *t_loa);
                authority.send(sink);
            }
            Body::Level23Authority { q_scale, v_loa, t_loa, authority } => {
                sink.put(Q_SCALE, *q_scale);
                sink.put(V_LOA, *v_loa);
                sink.put(T_LOA, *t_loa);
                authority.send(sink);
            }
            Body::Reposition(reposition) => reposition.send(sink),
            Body::Gradient(q_scale, slopes) => {
                sink.put(Q_SCALE, *q_scale);
                send_chain(slopes, sink);
            }
            Body::SpeedProfile(q_scale, speeds) => {
                sink.put(Q_SCALE, *q_scale);
                send_chain(speeds, sink);
            }
            Body::LevelOrder(q_scale, d_leveltr, orders) => {
                sink.put(Q_SCALE, *q_scale);
                sink.put(D_LEVELTR, *d_leveltr);
                send_chain(orders, sink);
            }
            Body::Session(q_rbc, session) => {
                sink.put(Q_RBC, *q_rbc);
                session.send(sink);
            }
            Body::Network(nid_mn) => sink.put(NID_MN, *nid_mn),
            Body::ConditionalLevelOrder(levels) => send_chain(levels, sink),
            Body::Groups(groups) => send_list(groups, sink),
            Body::AuthorityRequest(request) => request.send(sink),
            Body::Reports(times, places) => {
                times.send(sink);
                send_list(places, sink);
            }
            Body::Restriction(restriction) => restriction.send(sink),
            Body::Revocation(nid_tsr) => sink.put(NID_TSR, *nid_tsr),
            Body::InitialStates(q_scale, d_trackinit) => {
                sink.put(Q_SCALE, *q_scale);
                sink.put(Q_TRACKINIT, true);
                sink.put(D_TRACKINIT, *d_trackinit);
            }
            Body::Conditions(q_scale, conditions) => {
                sink.put(Q_SCALE, *q_scale);
                sink.put(Q_TRACKINIT, false);
                send_chain(conditions, sink);
            }
            Body::PlainText(frame, text) => {
                frame.send(sink);
                sink.put(L_TEXT, text.len() as u8);
                for byte in text {
                    sink.put(X_TEXT, *byte);
                }
            }
            Body::FixedText(frame, q_text) => {
                frame.send(sink);
                sink.put(Q_TEXT, *q_text);
            }
            Body::ModeProfile(q_scale, areas) => {
                sink.put(Q_SCALE, *q_scale);
                send_chain(areas, sink);
            }
            Body::Transition(transition, session) => {
                transition.send(sink);
                session.send(sink);
            }
            Body::Aspect(q_aspect) => sink.put(Q_ASPECT, *q_aspect),
            Body::Infill(group) => group.send(sink),
            Body::Stop(q_srstop) => sink.put(Q_SRSTOP, *q_srstop),
            Body::RunningNumber(nid_operational) => sink.put(NID_OPERATIONAL, *nid_operational),
            Body::Slowdown(slowdown) => slowdown.send(sink),
            Body::Located(located) => located.send(sink),
            Body::Error(m_error) => sink.put(M_ERROR, *m_error),
        }
    }
}

// ---- Telegrams and messages.

#[derive(Clone, Copy, PartialEq, Eq)]
pub enum Kind {
    Short,
    Long,
    Radio,
    Train,
}

impl Kind {
    pub fn name(self) -> &'static str {
        match self {
            Kind::Short => "short",
            Kind::Long => "long",
            Kind::Radio => "radio",
            Kind::Train => "train",
        }
    }

    /// Which way a message goes.
    #[inline(always)]
    pub fn way(self) -> Option<Way> {
        match self {
            Kind::Short | Kind::Long => None,
            Kind::Radio => Some(Way::ToTrain),
            Kind::Train => Some(Way::ToTrack),
        }
    }

    /// The user bits of a telegram.
    #[inline(always)]
    pub fn user_bits(self) -> usize {
        if self == Kind::Short {
            210
        } else {
            830
        }
    }

    /// The number of bytes of an item that begins so; more than are there if that isn't known yet.
    #[inline(always)]
    pub fn bytes(self, item: &[u8]) -> usize {
        match self {
            Kind::Short => 27,
            Kind::Long => 104,
            Kind::Radio | Kind::Train => match item {
                [_, high, low, ..] => (usize::from(*high) << 2 | usize::from(*low) >> 6).max(3),
                _ => usize::MAX,
            },
        }
    }
}

/// An item that was decoded.
pub enum Item {
    Telegram(Telegram),
    Message(Message, Way),
}

pub struct Telegram {
    pub header: HeaderNumbers,
    pub packets: Vec<Packet>,
    pub fill: Kept,
}

pub enum Head {
    ToTrain { m_ack: bool, nid_lrbg: u32 },
    ToTrack { nid_engine: u32 },
}

/// The variables that are a message's own.
pub enum Own {
    Nothing,
    SrAuthorisation(u8, u16),
    Time(u32),
    Emergency(u8),
    Version(u8),
    Shift(u8, i16),
    Orientation(bool),
    Status(u8),
}

impl Own {
    /// Those of a typed message of this number.
    #[inline(always)]
    pub fn read(source: &mut impl Source, way: Way, nid: u8) -> Option<Own> {
        let mut run = source.run()?;
        let own = match (way, nid) {
            (Way::ToTrain, 2) => Own::SrAuthorisation(run.take(Q_SCALE)?, run.take(D_SR)?),
            (Way::ToTrain, 8 | 27 | 28) | (Way::ToTrack, 137 | 138 | 146) => Own::Time(run.take(T_TRAIN)?),
            (Way::ToTrain, 16 | 18) => Own::Emergency(run.take(NID_EM)?),
            (Way::ToTrain, 32) => Own::Version(run.take(M_VERSION)?),
            (Way::ToTrain, 33) => Own::Shift(run.take(Q_SCALE)?, run.take(D_REF)?),
            (Way::ToTrain, 45) => Own::Orientation(run.take(Q_ORIENTATION)?),
            (Way::ToTrack, 157) => Own::Status(run.take(Q_STATUS)?),
            _ => Own::Nothing,
        };
        run.pass();
        Some(own)
    }

    #[inline(always)]
    pub fn send(&self, sink: &mut impl Sink) {
        match self {
            Own::Nothing => {}
            Own::SrAuthorisation(q_scale, d_sr) => {
                sink.put(Q_SCALE, *q_scale);
                sink.put(D_SR, *d_sr);
            }
            Own::Time(t_train) => sink.put(T_TRAIN, *t_train),
            Own::Emergency(nid_em) => sink.put(NID_EM, *nid_em),
            Own::Version(m_version) => sink.put(M_VERSION, *m_version),
            Own::Shift(q_scale, d_ref) => {
                sink.put(Q_SCALE, *q_scale);
                sink.put(D_REF, *d_ref);
            }
            Own::Orientation(q_orientation) => sink.put(Q_ORIENTATION, *q_orientation),
            Own::Status(q_status) => sink.put(Q_STATUS, *q_status),
        }
    }
}

/// At most seven bits, the first on top of a byte, and zeros after the last.
pub struct Padding {
    pub top: u8,
    pub len: usize,
}

/// A message, with its length in bytes.
pub struct Message {
    pub nid: u8,
    pub length: u16,
    pub content: Content,
}

pub enum Content {
    Typed { start: Start, packets: Vec<Packet>, padding: Padding },
    Kept(Kept),
}

/// What a typed message has between its length and its packets.
pub struct Start {
    pub t_train: u32,
    pub head: Head,
    pub own: Own,
}

impl Head {
    #[inline(always)]
    pub fn read(source: &mut impl Source, way: Way) -> Option<Head> {
        let mut run = source.run()?;
        let head = match way {
            Way::ToTrain => Head::ToTrain { m_ack: run.take(M_ACK)?, nid_lrbg: run.take(NID_LRBG)? },
            Way::ToTrack => Head::ToTrack { nid_engine: run.take(NID_ENGINE)? },
        };
        run.pass();
        Some(head)
    }

    #[inline(always)]
    pub fn send(&self, sink: &mut impl Sink) {
        match self {
            Head::ToTrain { m_ack, nid_lrbg } => {
                sink.put(M_ACK, *m_ack);
                sink.put(NID_LRBG, *nid_lrbg);
            }
            Head::ToTrack { nid_engine } => sink.put(NID_ENGINE, *nid_engine),
        }
    }
}
