//! Variables, and what is known about them.

/// What is known about a variable at compile time.
pub trait Variable: Copy {
    /// How many bits it takes.
    const WIDTH: u32;
    /// What is in front of its number in text, and in JSON.
    const LINE: Label;
    const PAIR: Label;
    /// The texts of numbers that are no measure.
    const MEANINGS: &'static [(u64, &'static str)];

    /// Whether it admits a number of its width.
    fn admits(number: u64) -> bool;
}

/// A short text with room after it, so that it is copied as a whole.
#[derive(Clone, Copy)]
pub struct Label {
    pub bytes: [u8; 32],
    pub len: usize,
}

impl Label {
    pub const fn new(before: &str, name: &str, after: &str) -> Label {
        let mut label = Label { bytes: [0; 32], len: 0 };
        let parts = [before.as_bytes(), name.as_bytes(), after.as_bytes()];
        let mut part = 0;
        while part < parts.len() {
            let mut at = 0;
            while at < parts[part].len() {
                label.bytes[label.len] = parts[part][at];
                label.len += 1;
                at += 1;
            }
            part += 1;
        }
        label
    }
}

/// Variables with their widths, the numbers that they admit if not all, and texts of numbers.
macro_rules! variables {
    ($($name:ident $width:literal $(($admitted:pat))? $($number:literal $text:literal)*;)*) => { $(
        #[allow(non_camel_case_types)]
        #[derive(Clone, Copy)]
        pub struct $name;

        impl Variable for $name {
            const WIDTH: u32 = $width;
            const LINE: Label = Label::new("  ", stringify!($name), " ");
            const PAIR: Label = Label::new("[\"", stringify!($name), "\",");
            const MEANINGS: &'static [(u64, &'static str)] = &[$(($number, $text)),*];

            #[inline(always)]
            fn admits(number: u64) -> bool {
                let _ = number;
                true $(&& matches!(number, $admitted))?
            }
        }
    )* };
}

variables! {
    Q_UPDOWN 1 (1); M_VERSION 7; Q_MEDIA 1 (0); N_PIG 3; N_TOTAL 3; M_DUP 2 (0..=2); M_MCOUNT 8; NID_C 10; NID_BG 14;
    Q_LINK 1; NID_PACKET 8; Q_DIR 2 (0..=2); L_PACKET 13; Q_SCALE 2 (0..=2); N_ITER 5; NID_VBCMK 6;
    D_LINK 15; Q_NEWCOUNTRY 1; Q_LINKORIENTATION 1; Q_LINKREACTION 2 (0..=2); Q_LOCACC 6;
    V_MAIN 7 (0..=120); V_LOA 7 (0..=120); T_LOA 10 1023 "unlimited"; L_SECTION 15; Q_SECTIONTIMER 1;
    T_SECTIONTIMER 10 1023 "unlimited"; D_SECTIONTIMERSTOPLOC 15; L_ENDSECTION 15; Q_ENDTIMER 1;
    T_ENDTIMER 10 1023 "unlimited"; D_ENDTIMERSTARTLOC 15; Q_DANGERPOINT 1; D_DP 15;
    V_RELEASEDP 7 (0..=120 | 126..=127) 126 "calculated on board" 127 "national value"; Q_OVERLAP 1; D_STARTOL 15;
    T_OL 10 1023 "unlimited"; D_OL 15;
    V_RELEASEOL 7 (0..=120 | 126..=127) 126 "calculated on board" 127 "national value";
    D_GRADIENT 15; Q_GDIR 1; G_A 8 255 "end of profile"; G_TSR 8; D_STATIC 15;
    V_STATIC 7 (0..=120 | 127) 127 "end of profile"; Q_FRONT 1; Q_DIFF 2 (0..=2); NC_CDDIFF 4; NC_DIFF 4; V_DIFF 7;
    D_LEVELTR 15 32767 "now"; M_LEVELTR 3 (0..=4); NID_NTC 8; L_ACKLEVELTR 15;
    Q_RBC 1; NID_RBC 14; NID_RADIO 64; Q_SLEEPSESSION 1; NID_MN 24; NID_TSR 8; D_TSR 15; L_TSR 15; V_TSR 7 (0..=120);
    Q_TEXTCLASS 2; Q_TEXTDISPLAY 1; D_TEXTDISPLAY 15; M_MODETEXTDISPLAY 4; M_LEVELTEXTDISPLAY 3 (0..=5);
    L_TEXTDISPLAY 15; T_TEXTDISPLAY 10; Q_TEXTCONFIRM 2; Q_CONFTEXTDISPLAY 1; Q_TEXTREPORT 1; NID_TEXTMESSAGE 8;
    L_TEXT 8; X_TEXT 8; Q_TEXT 8; Q_ASPECT 1; Q_SRSTOP 1; NID_OPERATIONAL 32;
    NID_MESSAGE 8; L_MESSAGE 10; T_TRAIN 32; M_ACK 1; NID_LRBG 24 16777215 "unknown"; D_SR 15; NID_EM 4; D_REF 16;
    Q_ORIENTATION 1; T_MAR 8; T_TIMEOUTRQST 10; T_CYCRQST 8; T_CYCLOC 8; D_CYCLOC 15; M_LOC 3; D_LOC 15; Q_LGTLOC 1;
    Q_TRACKINIT 1; D_TRACKINIT 15; D_TRACKCOND 15; L_TRACKCOND 15; M_TRACKCOND 4;
    D_MAMODE 15; M_MAMODE 2 (0..=2); V_MAMODE 7 (0..=120 | 127); L_MAMODE 15; L_ACKMAMODE 15; Q_MAMODE 1; D_RBCTR 15;
    NID_ENGINE 24; Q_STATUS 2; NID_PRVLRBG 24; M_ERROR 8; D_LRBG 15; Q_DIRLRBG 2; Q_DLRBG 2; L_DOUBTOVER 15;
    L_DOUBTUNDER 15; Q_LENGTH 2; L_TRAININT 15; V_TRAIN 7; Q_DIRTRAIN 2; M_MODE 4; M_LEVEL 3 (0..=4);
}

/// What a field holds, as the number that is sent.
pub trait Number: Copy {
    fn from_number(number: u64) -> Self;
    fn number(self) -> u64;
}

macro_rules! numbers {
    ($($type:ty)*) => { $(
        impl Number for $type {
            #[inline(always)]
            fn from_number(number: u64) -> Self {
                number as $type
            }
            #[inline(always)]
            fn number(self) -> u64 {
                self as u64
            }
        }
    )* };
}

numbers!(u8 u16 u32 u64);

impl Number for bool {
    #[inline(always)]
    fn from_number(number: u64) -> Self {
        number != 0
    }
    #[inline(always)]
    fn number(self) -> u64 {
        u64::from(self)
    }
}

impl Number for i16 {
    #[inline(always)]
    fn from_number(number: u64) -> Self {
        number as i16
    }
    #[inline(always)]
    fn number(self) -> u64 {
        u64::from(self as u16)
    }
}
