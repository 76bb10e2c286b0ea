# Written by bindings/header.py from the specs.
from typing import Dict, Tuple

#: the header of a telegram with the least numbers
HEADER: Tuple[Tuple[str, int], ...] = (
    ("Q_UPDOWN", 1),
    ("M_VERSION", 32),
    ("Q_MEDIA", 0),
    ("N_PIG", 0),
    ("N_TOTAL", 0),
    ("M_DUP", 0),
    ("M_MCOUNT", 0),
    ("NID_C", 0),
    ("NID_BG", 0),
    ("Q_LINK", 0),
)

#: how many bits the packets and FILL of a telegram have
ROOM: Dict[str, int] = {'short': 152, 'long': 772}

#: the JSON of a packet of each number that is typed, to the train and to the track, as SUPPORTED.md has it
PACKETS: Dict[str, Dict[int, str]] = {
    "train": {
        0: '{"fields":[["NID_VBCMK",0]],"nid":0}',
        2: '{"dir":1,"fields":[["M_VERSION",0]],"nid":2}',
        5: '{"dir":1,"fields":[["Q_SCALE",1],["D_LINK",0],["Q_NEWCOUNTRY",0],["NID_BG",0],["Q_LINKORIENTATION",0],["Q_LINKREACTION",0],["Q_LOCACC",0],["N_ITER",0]],"nid":5}',
        12: '{"dir":1,"fields":[["Q_SCALE",1],["V_MAIN",0],["V_LOA",0],["T_LOA",0],["N_ITER",0],["L_ENDSECTION",0],["Q_SECTIONTIMER",0],["Q_ENDTIMER",0],["Q_DANGERPOINT",0],["Q_OVERLAP",0]],"nid":12}',
        15: '{"dir":1,"fields":[["Q_SCALE",1],["V_LOA",0],["T_LOA",0],["N_ITER",0],["L_ENDSECTION",0],["Q_SECTIONTIMER",0],["Q_ENDTIMER",0],["Q_DANGERPOINT",0],["Q_OVERLAP",0]],"nid":15}',
        16: '{"dir":1,"fields":[["Q_SCALE",1],["L_SECTION",0]],"nid":16}',
        21: '{"dir":1,"fields":[["Q_SCALE",1],["D_GRADIENT",0],["Q_GDIR",0],["G_A",0],["N_ITER",0]],"nid":21}',
        27: '{"dir":1,"fields":[["Q_SCALE",1],["D_STATIC",0],["V_STATIC",0],["Q_FRONT",0],["N_ITER",0],["N_ITER",0]],"nid":27}',
        41: '{"dir":1,"fields":[["Q_SCALE",1],["D_LEVELTR",0],["M_LEVELTR",0],["L_ACKLEVELTR",0],["N_ITER",0]],"nid":41}',
        42: '{"dir":1,"fields":[["Q_RBC",0],["NID_C",0],["NID_RBC",0],["NID_RADIO","0000000000000000"],["Q_SLEEPSESSION",0]],"nid":42}',
        45: '{"dir":1,"fields":[["NID_MN",0]],"nid":45}',
        46: '{"dir":1,"fields":[["M_LEVELTR",0],["N_ITER",0]],"nid":46}',
        49: '{"dir":1,"fields":[["N_ITER",0]],"nid":49}',
        57: '{"dir":1,"fields":[["T_MAR",0],["T_TIMEOUTRQST",0],["T_CYCRQST",0]],"nid":57}',
        58: '{"dir":1,"fields":[["Q_SCALE",1],["T_CYCLOC",0],["D_CYCLOC",0],["M_LOC",0],["N_ITER",0]],"nid":58}',
        63: '{"dir":1,"fields":[["N_ITER",0]],"nid":63}',
        64: '{"dir":1,"fields":[],"nid":64}',
        65: '{"dir":1,"fields":[["Q_SCALE",1],["NID_TSR",0],["D_TSR",0],["L_TSR",0],["Q_FRONT",0],["V_TSR",0]],"nid":65}',
        66: '{"dir":1,"fields":[["NID_TSR",0]],"nid":66}',
        68: '{"dir":1,"fields":[["Q_SCALE",1],["Q_TRACKINIT",0],["D_TRACKCOND",0],["L_TRACKCOND",0],["M_TRACKCOND",0],["N_ITER",0]],"nid":68}',
        72: '{"dir":1,"fields":[["Q_SCALE",1],["Q_TEXTCLASS",0],["Q_TEXTDISPLAY",0],["D_TEXTDISPLAY",0],["M_MODETEXTDISPLAY",0],["M_LEVELTEXTDISPLAY",0],["L_TEXTDISPLAY",0],["T_TEXTDISPLAY",0],["M_MODETEXTDISPLAY",0],["M_LEVELTEXTDISPLAY",0],["Q_TEXTCONFIRM",0],["L_TEXT",0]],"nid":72}',
        76: '{"dir":1,"fields":[["Q_SCALE",1],["Q_TEXTCLASS",0],["Q_TEXTDISPLAY",0],["D_TEXTDISPLAY",0],["M_MODETEXTDISPLAY",0],["M_LEVELTEXTDISPLAY",0],["L_TEXTDISPLAY",0],["T_TEXTDISPLAY",0],["M_MODETEXTDISPLAY",0],["M_LEVELTEXTDISPLAY",0],["Q_TEXTCONFIRM",0],["Q_TEXT",0]],"nid":76}',
        80: '{"dir":1,"fields":[["Q_SCALE",1],["D_MAMODE",0],["M_MAMODE",0],["V_MAMODE",0],["L_MAMODE",0],["L_ACKMAMODE",0],["Q_MAMODE",0],["N_ITER",0]],"nid":80}',
        131: '{"dir":1,"fields":[["Q_SCALE",1],["D_RBCTR",0],["NID_C",0],["NID_RBC",0],["NID_RADIO","0000000000000000"],["Q_SLEEPSESSION",0]],"nid":131}',
        132: '{"dir":1,"fields":[["Q_ASPECT",0]],"nid":132}',
        135: '{"dir":1,"fields":[],"nid":135}',
        136: '{"dir":1,"fields":[["Q_NEWCOUNTRY",0],["NID_BG",0]],"nid":136}',
        137: '{"dir":1,"fields":[["Q_SRSTOP",0]],"nid":137}',
        140: '{"dir":1,"fields":[["NID_OPERATIONAL",0]],"nid":140}',
        141: '{"dir":1,"fields":[["Q_GDIR",0],["G_TSR",0]],"nid":141}',
        145: '{"dir":1,"fields":[],"nid":145}',
        254: '{"dir":1,"fields":[],"nid":254}',
        44: '{"data":"","dir":1,"nid":44}',
    },
    "track": {
        0: '{"fields":[["Q_SCALE",1],["NID_LRBG",0],["D_LRBG",0],["Q_DIRLRBG",0],["Q_DLRBG",0],["L_DOUBTOVER",0],["L_DOUBTUNDER",0],["Q_LENGTH",0],["V_TRAIN",0],["Q_DIRTRAIN",0],["M_MODE",0],["M_LEVEL",0]],"nid":0}',
        1: '{"fields":[["Q_SCALE",1],["NID_LRBG",0],["NID_PRVLRBG",0],["D_LRBG",0],["Q_DIRLRBG",0],["Q_DLRBG",0],["L_DOUBTOVER",0],["L_DOUBTUNDER",0],["Q_LENGTH",0],["V_TRAIN",0],["Q_DIRTRAIN",0],["M_MODE",0],["M_LEVEL",0]],"nid":1}',
        4: '{"fields":[["M_ERROR",0]],"nid":4}',
        5: '{"fields":[["NID_OPERATIONAL",0]],"nid":5}',
        44: '{"data":"","nid":44}',
    },
}
