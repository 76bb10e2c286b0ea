# Written by bindings/python/rows.py from the sources.
from typing import Dict, Tuple

#: the rows of packets to the train that have groups that are repeated: `(V TEST n)` and `[n]` take the next n words, those of
#: groups counted; the first if the number of V passes the test, the second as often as the number before it says
ROWS: Dict[int, str] = {
    5: "Q_SCALE D_LINK Q_NEWCOUNTRY (Q_NEWCOUNTRY IsOne 1) NID_C NID_BG Q_LINKORIENTATION Q_LINKREACTION Q_LOCACC N_ITER [8] D_LINK Q_NEWCOUNTRY (Q_NEWCOUNTRY IsOne 1) NID_C NID_BG Q_LINKORIENTATION Q_LINKREACTION Q_LOCACC",
    12: "Q_SCALE V_MAIN V_LOA T_LOA N_ITER [5] L_SECTION Q_SECTIONTIMER (Q_SECTIONTIMER IsOne 2) T_SECTIONTIMER D_SECTIONTIMERSTOPLOC L_ENDSECTION Q_SECTIONTIMER (Q_SECTIONTIMER IsOne 2) T_SECTIONTIMER D_SECTIONTIMERSTOPLOC Q_ENDTIMER (Q_ENDTIMER IsOne 2) T_ENDTIMER D_ENDTIMERSTARTLOC Q_DANGERPOINT (Q_DANGERPOINT IsOne 2) D_DP V_RELEASEDP Q_OVERLAP (Q_OVERLAP IsOne 4) D_STARTOL T_OL D_OL V_RELEASEOL",
    15: "Q_SCALE V_LOA T_LOA N_ITER [5] L_SECTION Q_SECTIONTIMER (Q_SECTIONTIMER IsOne 2) T_SECTIONTIMER D_SECTIONTIMERSTOPLOC L_ENDSECTION Q_SECTIONTIMER (Q_SECTIONTIMER IsOne 2) T_SECTIONTIMER D_SECTIONTIMERSTOPLOC Q_ENDTIMER (Q_ENDTIMER IsOne 2) T_ENDTIMER D_ENDTIMERSTARTLOC Q_DANGERPOINT (Q_DANGERPOINT IsOne 2) D_DP V_RELEASEDP Q_OVERLAP (Q_OVERLAP IsOne 4) D_STARTOL T_OL D_OL V_RELEASEOL",
    21: "Q_SCALE D_GRADIENT Q_GDIR G_A N_ITER [3] D_GRADIENT Q_GDIR G_A",
    27: "Q_SCALE D_STATIC V_STATIC Q_FRONT N_ITER [6] Q_DIFF (Q_DIFF IsZero 1) NC_CDDIFF (Q_DIFF IsOneOrTwo 1) NC_DIFF V_DIFF N_ITER [11] D_STATIC V_STATIC Q_FRONT N_ITER [6] Q_DIFF (Q_DIFF IsZero 1) NC_CDDIFF (Q_DIFF IsOneOrTwo 1) NC_DIFF V_DIFF",
    41: "Q_SCALE D_LEVELTR M_LEVELTR (M_LEVELTR IsOne 1) NID_NTC L_ACKLEVELTR N_ITER [4] M_LEVELTR (M_LEVELTR IsOne 1) NID_NTC L_ACKLEVELTR",
    46: "M_LEVELTR (M_LEVELTR IsOne 1) NID_NTC N_ITER [3] M_LEVELTR (M_LEVELTR IsOne 1) NID_NTC",
    49: "N_ITER [4] Q_NEWCOUNTRY (Q_NEWCOUNTRY IsOne 1) NID_C NID_BG",
    58: "Q_SCALE T_CYCLOC D_CYCLOC M_LOC N_ITER [2] D_LOC Q_LGTLOC",
    63: "N_ITER [4] Q_NEWCOUNTRY (Q_NEWCOUNTRY IsOne 1) NID_C NID_BG",
    68: "Q_SCALE Q_TRACKINIT (Q_TRACKINIT IsOne 1) D_TRACKINIT (Q_TRACKINIT IsZero 8) D_TRACKCOND L_TRACKCOND M_TRACKCOND N_ITER [3] D_TRACKCOND L_TRACKCOND M_TRACKCOND",
    72: "Q_SCALE Q_TEXTCLASS Q_TEXTDISPLAY D_TEXTDISPLAY M_MODETEXTDISPLAY M_LEVELTEXTDISPLAY (M_LEVELTEXTDISPLAY IsOne 1) NID_NTC L_TEXTDISPLAY T_TEXTDISPLAY M_MODETEXTDISPLAY M_LEVELTEXTDISPLAY (M_LEVELTEXTDISPLAY IsOne 1) NID_NTC Q_TEXTCONFIRM (Q_TEXTCONFIRM IsNotZero 6) Q_CONFTEXTDISPLAY Q_TEXTREPORT (Q_TEXTREPORT IsOne 3) NID_TEXTMESSAGE NID_C NID_RBC L_TEXT [1] X_TEXT",
    80: "Q_SCALE D_MAMODE M_MAMODE V_MAMODE L_MAMODE L_ACKMAMODE Q_MAMODE N_ITER [6] D_MAMODE M_MAMODE V_MAMODE L_MAMODE L_ACKMAMODE Q_MAMODE",
}

#: how many bits a packet has before its row
FRAMES: Dict[str, int] = {"radio": 23, "train": 21}

#: the header of a message of a kind after L_MESSAGE, with the least numbers
HEADS: Dict[str, Tuple[Tuple[str, int], ...]] = {
    "radio": (("T_TRAIN", 0), ("M_ACK", 0), ("NID_LRBG", 0)),
    "train": (("T_TRAIN", 0), ("NID_ENGINE", 0)),
}

#: the variables of its own that a message has, by its kind and number, with the least numbers and Q_SCALE 1
OWN: Dict[str, Dict[int, Tuple[Tuple[str, int], ...]]] = {
    "radio": {
        2: (("Q_SCALE", 1), ("D_SR", 0)),
        3: (),
        6: (),
        8: (("T_TRAIN", 0),),
        9: (),
        16: (("NID_EM", 0),),
        18: (("NID_EM", 0),),
        24: (),
        27: (("T_TRAIN", 0),),
        28: (("T_TRAIN", 0),),
        32: (("M_VERSION", 0),),
        33: (("Q_SCALE", 1), ("D_REF", 0)),
        38: (),
        39: (),
        40: (),
        41: (),
        43: (),
        45: (("Q_ORIENTATION", 0),),
    },
    "train": {
        130: (),
        136: (),
        137: (("T_TRAIN", 0),),
        138: (("T_TRAIN", 0),),
        146: (("T_TRAIN", 0),),
        150: (),
        155: (),
        156: (),
        157: (("Q_STATUS", 0),),
        159: (),
    },
}
