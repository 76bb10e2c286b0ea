-- The tables of share/etcs.tables.json in Lua, for etcs.lua. Made by tools/format_tables.py.
return {
  variables = {
    Q_UPDOWN = {
      name = "Q_UPDOWN", bits = 1, admits = {{1, 1}}, text = "Which way the telegram goes: 1 is from track to train",
      meanings = {[1] = "track to train"}
    },
    M_VERSION_HEADER = {
      name = "M_VERSION", bits = 7, admits = {{32, 33}},
      text = "The version of the system in the header of a telegram: three bits X, four bits Y. It prints as `M_VERSION`",
      parts = {{"X", 3}, {"Y", 4}}
    },
    Q_MEDIA = {name = "Q_MEDIA", bits = 1, admits = {{0, 0}}, text = "The medium: 0 is a balise", meanings = {[0] = "balise"}},
    N_PIG = {name = "N_PIG", bits = 3, admits = {{0, 7}}, text = "The balise's position in its group", plus = 1},
    N_TOTAL = {
      name = "N_TOTAL", bits = 3, admits = {{0, 7}}, text = "The count of balises in the group, less one", unit = "in the group",
      plus = 1
    },
    M_DUP = {
      name = "M_DUP", bits = 2, admits = {{0, 2}},
      text = "Whether the telegram repeats that of the next balise (1) or of the previous one (2)",
      meanings = {[0] = "no duplicate", [1] = "duplicate of the next balise", [2] = "duplicate of the previous balise"}
    },
    M_MCOUNT = {
      name = "M_MCOUNT", bits = 8, admits = {{0, 255}}, text = "The message counter",
      meanings = {[254] = "fits no message of the group", [255] = "fits each message of the group"}
    },
    NID_C = {name = "NID_C", bits = 10, admits = {{0, 1023}}, text = "The country or region"},
    NID_BG = {
      name = "NID_BG", bits = 14, admits = {{0, 16383}}, text = "The balise group within its country or region",
      meanings = {[16383] = "unknown"}
    },
    Q_LINK = {
      name = "Q_LINK", bits = 1, admits = {{0, 1}}, text = "Whether the group is marked as linked",
      meanings = {[0] = "unlinked", [1] = "linked"}
    },
    NID_PACKET = {name = "NID_PACKET", bits = 8, admits = {{0, 255}}, text = "The packet's number"},
    Q_DIR = {
      name = "Q_DIR", bits = 2, admits = {{0, 2}},
      text = "The direction for which the packet is valid: 0 reverse, 1 nominal, 2 both",
      meanings = {[0] = "reverse", [1] = "nominal", [2] = "both directions"}
    },
    L_PACKET = {
      name = "L_PACKET", bits = 13, admits = {{0, 8191}}, text = "The length of the packet in bits, with its frame",
      unit = "bits", step = 1
    },
    Q_SCALE = {
      name = "Q_SCALE", bits = 2, admits = {{0, 2}}, text = "The unit of the packet's distances: 0 is 10 cm, 1 is 1 m, 2 is 10 m",
      steps = {[0] = 0.1, [1] = 1, [2] = 10},
      meanings = {[0] = "distances in 10 cm", [1] = "distances in 1 m", [2] = "distances in 10 m"}
    },
    N_ITER = {name = "N_ITER", bits = 5, admits = {{0, 31}}, text = "How many entries follow"},
    NID_VBCMK = {name = "NID_VBCMK", bits = 6, admits = {{0, 63}}, text = "The marker of a virtual balise cover"},
    D_LINK = {
      name = "D_LINK", bits = 15, admits = {{0, 32767}}, text = "The distance to the next linked group", unit = "m",
      step = "Q_SCALE"
    },
    Q_NEWCOUNTRY = {name = "Q_NEWCOUNTRY", bits = 1, admits = {{0, 1}}, text = "Whether NID_C follows"},
    Q_LINKORIENTATION = {
      name = "Q_LINKORIENTATION", bits = 1, admits = {{0, 1}},
      text = "The direction in which the train passes the linked group: 0 reverse, 1 nominal",
      meanings = {[0] = "reverse", [1] = "nominal"}
    },
    Q_LINKREACTION = {
      name = "Q_LINKREACTION", bits = 2, admits = {{0, 2}},
      text = "What the train does if linking finds a fault: 0 train trip, 1 service brake, 2 nothing",
      meanings = {[0] = "train trip", [1] = "service brake", [2] = "no reaction"}
    },
    Q_LOCACC = {
      name = "Q_LOCACC", bits = 6, admits = {{0, 63}}, text = "How exactly the place of the linked group is known, in metres",
      unit = "m", step = 1
    },
    V_MAIN = {
      name = "V_MAIN", bits = 7, admits = {{0, 120}}, text = "The speed that signalling allows, in steps of 5 km/h",
      unit = "km/h", step = 5, most = 120
    },
    V_LOA = {
      name = "V_LOA", bits = 7, admits = {{0, 120}}, text = "The speed at the limit of authority, in steps of 5 km/h",
      unit = "km/h", step = 5, most = 120
    },
    T_LOA = {
      name = "T_LOA", bits = 10, admits = {{0, 1023}}, text = "How long V_LOA holds, in seconds", unit = "s", step = 1,
      meanings = {[1023] = "unlimited"}
    },
    L_SECTION = {
      name = "L_SECTION", bits = 15, admits = {{0, 32767}}, text = "The length of a section", unit = "m", step = "Q_SCALE"
    },
    Q_SECTIONTIMER = {
      name = "Q_SECTIONTIMER", bits = 1, admits = {{0, 1}}, text = "Whether the section has a timer, which then follows"
    },
    T_SECTIONTIMER = {
      name = "T_SECTIONTIMER", bits = 10, admits = {{0, 1023}}, text = "How long the section is valid, in seconds", unit = "s",
      step = 1, meanings = {[1023] = "unlimited"}
    },
    D_SECTIONTIMERSTOPLOC = {
      name = "D_SECTIONTIMERSTOPLOC", bits = 15, admits = {{0, 32767}}, text = "Where the section's timer stops", unit = "m",
      step = "Q_SCALE"
    },
    L_ENDSECTION = {
      name = "L_ENDSECTION", bits = 15, admits = {{0, 32767}}, text = "The length of the last section", unit = "m",
      step = "Q_SCALE"
    },
    Q_ENDTIMER = {
      name = "Q_ENDTIMER", bits = 1, admits = {{0, 1}}, text = "Whether the last section has an end timer, which then follows"
    },
    T_ENDTIMER = {
      name = "T_ENDTIMER", bits = 10, admits = {{0, 1023}}, text = "How long the last section is valid, in seconds", unit = "s",
      step = 1, meanings = {[1023] = "unlimited"}
    },
    D_ENDTIMERSTARTLOC = {
      name = "D_ENDTIMERSTARTLOC", bits = 15, admits = {{0, 32767}}, text = "Where the end timer starts", unit = "m",
      step = "Q_SCALE"
    },
    Q_DANGERPOINT = {name = "Q_DANGERPOINT", bits = 1, admits = {{0, 1}}, text = "Whether a danger point follows"},
    D_DP = {
      name = "D_DP", bits = 15, admits = {{0, 32767}}, text = "The distance from the end of the authority to the danger point",
      unit = "m", step = "Q_SCALE"
    },
    V_RELEASEDP = {
      name = "V_RELEASEDP", bits = 7, admits = {{0, 120}, {126, 127}},
      text = "The release speed towards the danger point, in steps of 5 km/h", unit = "km/h", step = 5, most = 120,
      meanings = {[126] = "calculated on board", [127] = "national value"}
    },
    Q_OVERLAP = {name = "Q_OVERLAP", bits = 1, admits = {{0, 1}}, text = "Whether an overlap follows"},
    D_STARTOL = {
      name = "D_STARTOL", bits = 15, admits = {{0, 32767}}, text = "Where the overlap's timer starts", unit = "m",
      step = "Q_SCALE"
    },
    T_OL = {
      name = "T_OL", bits = 10, admits = {{0, 1023}}, text = "How long the overlap is valid, in seconds", unit = "s", step = 1,
      meanings = {[1023] = "unlimited"}
    },
    D_OL = {
      name = "D_OL", bits = 15, admits = {{0, 32767}},
      text = "The distance from the end of the authority to the end of the overlap", unit = "m", step = "Q_SCALE"
    },
    V_RELEASEOL = {
      name = "V_RELEASEOL", bits = 7, admits = {{0, 120}, {126, 127}},
      text = "The release speed towards the overlap, in steps of 5 km/h", unit = "km/h", step = 5, most = 120,
      meanings = {[126] = "calculated on board", [127] = "national value"}
    },
    D_GRADIENT = {
      name = "D_GRADIENT", bits = 15, admits = {{0, 32767}}, text = "The distance to the next change of gradient", unit = "m",
      step = "Q_SCALE"
    },
    Q_GDIR = {
      name = "Q_GDIR", bits = 1, admits = {{0, 1}}, text = "Whether the track climbs (1) or falls (0)",
      meanings = {[0] = "downhill", [1] = "uphill"}
    },
    G_A = {
      name = "G_A", bits = 8, admits = {{0, 255}}, text = "The gradient without its sign, in per mille", unit = "per mille",
      step = 1, meanings = {[255] = "end of profile"}
    },
    G_TSR = {
      name = "G_TSR", bits = 8, admits = {{0, 255}},
      text = "The gradient to assume in temporary restrictions, without its sign, in per mille", unit = "per mille", step = 1
    },
    D_STATIC = {
      name = "D_STATIC", bits = 15, admits = {{0, 32767}}, text = "The distance to the next change of speed", unit = "m",
      step = "Q_SCALE"
    },
    V_STATIC = {
      name = "V_STATIC", bits = 7, admits = {{0, 120}, {127, 127}}, text = "The static speed, in steps of 5 km/h", unit = "km/h",
      step = 5, most = 120, meanings = {[127] = "end of profile"}
    },
    Q_FRONT = {
      name = "Q_FRONT", bits = 1, admits = {{0, 1}},
      text = "Whether the speed may rise with the train's front (1) or only with its end (0)",
      meanings = {[0] = "train-length delay at the end of the element", [1] = "no train-length delay at the end of the element"}
    },
    Q_DIFF = {
      name = "Q_DIFF", bits = 2, admits = {{0, 2}}, text = "Which of NC_CDDIFF (0) and NC_DIFF (1 and 2) follows",
      meanings = {
        [0] = "cant deficiency category", [1] = "other category, in place of cant deficiency",
        [2] = "other category, in addition to cant deficiency"
      }
    },
    NC_CDDIFF = {name = "NC_CDDIFF", bits = 4, admits = {{0, 15}}, text = "A category of trains by cant deficiency"},
    NC_DIFF = {name = "NC_DIFF", bits = 4, admits = {{0, 15}}, text = "Another category of trains"},
    V_DIFF = {
      name = "V_DIFF", bits = 7, admits = {{0, 127}}, text = "The speed for the category, in steps of 5 km/h", unit = "km/h",
      step = 5, most = 120
    },
    D_LEVELTR = {
      name = "D_LEVELTR", bits = 15, admits = {{0, 32767}}, text = "The distance to the change of level", unit = "m",
      step = "Q_SCALE", meanings = {[32767] = "now"}
    },
    M_LEVELTR = {
      name = "M_LEVELTR", bits = 3, admits = {{0, 4}}, text = "The level; 1 is that of a national system, and NID_NTC follows",
      meanings = {[0] = "level 0", [1] = "level NTC", [2] = "level 1", [3] = "level 2", [4] = "level 3"}
    },
    NID_NTC = {name = "NID_NTC", bits = 8, admits = {{0, 255}}, text = "The national system"},
    L_ACKLEVELTR = {
      name = "L_ACKLEVELTR", bits = 15, admits = {{0, 32767}},
      text = "The length over which the driver may acknowledge the change of level", unit = "m", step = "Q_SCALE"
    },
    Q_RBC = {
      name = "Q_RBC", bits = 1, admits = {{0, 1}}, text = "Whether to open (1) or to end (0) the session",
      meanings = {[0] = "end the session", [1] = "open a session"}
    },
    NID_RBC = {name = "NID_RBC", bits = 14, admits = {{0, 16383}}, text = "The radio block centre"},
    NID_RADIO = {
      name = "NID_RADIO", bits = 64, admits = {{0, 18446744073709551615}},
      text = "The radio number to call, as sixteen digits of four bits", digits = 16
    },
    Q_SLEEPSESSION = {
      name = "Q_SLEEPSESSION", bits = 1, admits = {{0, 1}},
      text = "Whether sleeping equipment manages the session too: 1 for yes",
      meanings = {[0] = "not by sleeping equipment", [1] = "by sleeping equipment too"}
    },
    NID_MN = {
      name = "NID_MN", bits = 24, admits = {{0, 16777215}}, text = "The radio network, as six digits of four bits", digits = 6
    },
    NID_TSR = {name = "NID_TSR", bits = 8, admits = {{0, 255}}, text = "The restriction's number"},
    D_TSR = {
      name = "D_TSR", bits = 15, admits = {{0, 32767}}, text = "The distance to the restriction", unit = "m", step = "Q_SCALE"
    },
    L_TSR = {
      name = "L_TSR", bits = 15, admits = {{0, 32767}}, text = "The length of the restriction", unit = "m", step = "Q_SCALE"
    },
    V_TSR = {
      name = "V_TSR", bits = 7, admits = {{0, 120}}, text = "The speed in the restriction, in steps of 5 km/h", unit = "km/h",
      step = 5, most = 120
    },
    Q_TEXTCLASS = {
      name = "Q_TEXTCLASS", bits = 2, admits = {{0, 3}}, text = "The class of the text",
      meanings = {[0] = "auxiliary", [1] = "important"}
    },
    Q_TEXTDISPLAY = {
      name = "Q_TEXTDISPLAY", bits = 1, admits = {{0, 1}},
      text = "Whether all conditions for showing the text must hold (1), or one is enough (0)",
      meanings = {[0] = "one condition is enough", [1] = "all conditions"}
    },
    D_TEXTDISPLAY = {
      name = "D_TEXTDISPLAY", bits = 15, admits = {{0, 32767}}, text = "The distance from which on the text is shown", unit = "m",
      step = "Q_SCALE", meanings = {[32767] = "not limited by distance"}
    },
    M_MODETEXTDISPLAY = {name = "M_MODETEXTDISPLAY", bits = 4, admits = {{0, 15}}, text = "The mode in which the text is shown"},
    M_LEVELTEXTDISPLAY = {
      name = "M_LEVELTEXTDISPLAY", bits = 3, admits = {{0, 5}},
      text = "The level in which the text is shown; with 1, NID_NTC follows",
      meanings = {[0] = "level 0", [1] = "level NTC", [2] = "level 1", [3] = "level 2", [4] = "level 3", [5] = "any level"}
    },
    L_TEXTDISPLAY = {
      name = "L_TEXTDISPLAY", bits = 15, admits = {{0, 32767}}, text = "The length over which the text is shown", unit = "m",
      step = "Q_SCALE", meanings = {[32767] = "not limited by distance"}
    },
    T_TEXTDISPLAY = {
      name = "T_TEXTDISPLAY", bits = 10, admits = {{0, 1023}}, text = "How long the text is shown, in seconds", unit = "s",
      step = 1, meanings = {[1023] = "not limited by time"}
    },
    Q_TEXTCONFIRM = {
      name = "Q_TEXTCONFIRM", bits = 2, admits = {{0, 3}}, text = "Whether and how the driver confirms the text",
      meanings = {[0] = "no confirmation required"}
    },
    Q_CONFTEXTDISPLAY = {
      name = "Q_CONFTEXTDISPLAY", bits = 1, admits = {{0, 1}},
      text = "Whether the driver's confirmation is one more condition for the text's end (1), or always ends it (0)"
    },
    Q_TEXTREPORT = {name = "Q_TEXTREPORT", bits = 1, admits = {{0, 1}}, text = "Whether the driver's confirmation is reported"},
    NID_TEXTMESSAGE = {
      name = "NID_TEXTMESSAGE", bits = 8, admits = {{0, 255}}, text = "The number under which the confirmation is reported"
    },
    L_TEXT = {name = "L_TEXT", bits = 8, admits = {{0, 255}}, text = "How many bytes of text follow"},
    X_TEXT = {name = "X_TEXT", bits = 8, admits = {{0, 255}}, text = "One byte of a text", characters = "ISO 8859-1"},
    Q_TEXT = {name = "Q_TEXT", bits = 8, admits = {{0, 255}}, text = "Which of the fixed texts is shown"},
    Q_ASPECT = {
      name = "Q_ASPECT", bits = 1, admits = {{0, 1}}, text = "Whether the train stops (0) or continues (1) in shunting mode",
      meanings = {[0] = "stop if in SH mode", [1] = "go if in SH mode"}
    },
    Q_SRSTOP = {
      name = "Q_SRSTOP", bits = 1, admits = {{0, 1}},
      text = "Whether the train stops (0) or continues (1) in staff responsible mode",
      meanings = {[0] = "stop if in SR mode", [1] = "go if in SR mode"}
    },
    NID_OPERATIONAL = {
      name = "NID_OPERATIONAL", bits = 32, admits = {{0, 4294967295}},
      text = "The train's running number, as eight digits of four bits", digits = 8
    },
    M_VERSION = {
      name = "M_VERSION", bits = 7, admits = {{0, 127}},
      text = "The version of the system in packet 2 and in message 32: three bits X, four bits Y", parts = {{"X", 3}, {"Y", 4}}
    },
    NID_MESSAGE = {name = "NID_MESSAGE", bits = 8, admits = {{0, 255}}, text = "The message's number"},
    L_MESSAGE = {
      name = "L_MESSAGE", bits = 10, admits = {{0, 1023}}, text = "The length of the whole message in bytes", unit = "bytes",
      step = 1
    },
    T_TRAIN = {
      name = "T_TRAIN", bits = 32, admits = {{0, 4294967295}}, text = "The time by the train's clock, in steps of 10 ms",
      unit = "s", step = 0.01, meanings = {[4294967295] = "unknown"}
    },
    M_ACK = {
      name = "M_ACK", bits = 1, admits = {{0, 1}}, text = "Whether the train acknowledges the message",
      meanings = {[0] = "no acknowledgement", [1] = "to be acknowledged"}
    },
    NID_LRBG = {
      name = "NID_LRBG", bits = 24, admits = {{0, 16777215}},
      text = "The balise group referred to: NID_C in the top 10 bits, NID_BG in the low 14",
      parts = {{"NID_C", 10}, {"NID_BG", 14}}, meanings = {[16777215] = "unknown"}
    },
    D_SR = {
      name = "D_SR", bits = 15, admits = {{0, 32767}}, text = "The distance that the train may run in staff responsible mode",
      unit = "m", step = "Q_SCALE", meanings = {[32767] = "infinite"}
    },
    NID_EM = {name = "NID_EM", bits = 4, admits = {{0, 15}}, text = "The number of an emergency message"},
    D_REF = {
      name = "D_REF", bits = 16, admits = {{0, 65535}}, text = "The shift of the location reference, in two's complement",
      unit = "m", step = "Q_SCALE", signed = true
    },
    Q_ORIENTATION = {
      name = "Q_ORIENTATION", bits = 1, admits = {{0, 1}}, text = "The train's orientation to the balise group referred to"
    },
    T_MAR = {
      name = "T_MAR", bits = 8, admits = {{0, 255}},
      text = "How long before the train would brake it asks for an authority, in seconds", unit = "s", step = 1,
      meanings = {[255] = "infinite"}
    },
    T_TIMEOUTRQST = {
      name = "T_TIMEOUTRQST", bits = 10, admits = {{0, 1023}},
      text = "How long before a speed's time runs out it asks, in seconds", unit = "s", step = 1,
      meanings = {[1023] = "infinite"}
    },
    T_CYCRQST = {
      name = "T_CYCRQST", bits = 8, admits = {{0, 255}}, text = "The time between two requests, in seconds", unit = "s", step = 1,
      meanings = {[255] = "infinite"}
    },
    T_CYCLOC = {
      name = "T_CYCLOC", bits = 8, admits = {{0, 255}}, text = "The time between two reports of position, in seconds", unit = "s",
      step = 1, meanings = {[255] = "infinite"}
    },
    D_CYCLOC = {
      name = "D_CYCLOC", bits = 15, admits = {{0, 32767}}, text = "The distance between two reports of position", unit = "m",
      step = "Q_SCALE", meanings = {[32767] = "infinite"}
    },
    M_LOC = {
      name = "M_LOC", bits = 3, admits = {{0, 7}},
      text = "Where else the train reports its position: 0 now, 1 at each balise group, 2 at no balise group",
      meanings = {[0] = "now", [1] = "at each balise group", [2] = "at no balise group"}
    },
    D_LOC = {
      name = "D_LOC", bits = 15, admits = {{0, 32767}}, text = "The distance to the place where the train reports its position",
      unit = "m", step = "Q_SCALE"
    },
    Q_LGTLOC = {
      name = "Q_LGTLOC", bits = 1, admits = {{0, 1}},
      text = "Which end of the train is reported to reach the place: 0 its rear, 1 its front",
      meanings = {[0] = "rear", [1] = "front"}
    },
    Q_TRACKINIT = {
      name = "Q_TRACKINIT", bits = 1, admits = {{0, 1}},
      text = "Whether the initial states are resumed (1), or track conditions follow (0)"
    },
    D_TRACKINIT = {
      name = "D_TRACKINIT", bits = 15, admits = {{0, 32767}},
      text = "The distance to the place from which on the initial states are resumed", unit = "m", step = "Q_SCALE"
    },
    D_TRACKCOND = {
      name = "D_TRACKCOND", bits = 15, admits = {{0, 32767}}, text = "The distance to the track condition", unit = "m",
      step = "Q_SCALE"
    },
    L_TRACKCOND = {
      name = "L_TRACKCOND", bits = 15, admits = {{0, 32767}}, text = "The length over which the track condition holds",
      unit = "m", step = "Q_SCALE"
    },
    M_TRACKCOND = {name = "M_TRACKCOND", bits = 4, admits = {{0, 15}}, text = "The kind of the track condition"},
    D_MAMODE = {
      name = "D_MAMODE", bits = 15, admits = {{0, 32767}}, text = "The distance to the start of the area of the mode", unit = "m",
      step = "Q_SCALE"
    },
    M_MAMODE = {
      name = "M_MAMODE", bits = 2, admits = {{0, 2}},
      text = "The mode in the area: 0 on sight, 1 shunting, 2 limited supervision",
      meanings = {[0] = "on sight", [1] = "shunting", [2] = "limited supervision"}
    },
    V_MAMODE = {
      name = "V_MAMODE", bits = 7, admits = {{0, 120}, {127, 127}},
      text = "The speed in the area, in steps of 5 km/h; 127 is the national value for the mode", unit = "km/h", step = 5,
      most = 120, meanings = {[127] = "national value"}
    },
    L_MAMODE = {
      name = "L_MAMODE", bits = 15, admits = {{0, 32767}}, text = "The length of the area", unit = "m", step = "Q_SCALE",
      meanings = {[32767] = "infinite"}
    },
    L_ACKMAMODE = {
      name = "L_ACKMAMODE", bits = 15, admits = {{0, 32767}},
      text = "The length before the area over which the driver may acknowledge the mode", unit = "m", step = "Q_SCALE"
    },
    Q_MAMODE = {
      name = "Q_MAMODE", bits = 1, admits = {{0, 1}},
      text = "Whether the start of the area is the end of authority alone (1), or the supervised location too (0)"
    },
    D_RBCTR = {
      name = "D_RBCTR", bits = 15, admits = {{0, 32767}},
      text = "The distance to the place where the other radio block centre takes over", unit = "m", step = "Q_SCALE"
    },
    NID_ENGINE = {name = "NID_ENGINE", bits = 24, admits = {{0, 16777215}}, text = "The number of the on-board equipment"},
    Q_STATUS = {
      name = "Q_STATUS", bits = 2, admits = {{0, 3}},
      text = "Whether the position reported at the start of a mission is valid: 0 it isn't, 1 it is, 2 it isn't known",
      meanings = {[0] = "invalid", [1] = "valid", [2] = "unknown"}
    },
    NID_PRVLRBG = {
      name = "NID_PRVLRBG", bits = 24, admits = {{0, 16777215}},
      text = "The balise group before the one referred to, written as NID_LRBG is", parts = {{"NID_C", 10}, {"NID_BG", 14}},
      meanings = {[16777215] = "unknown"}
    },
    M_ERROR = {name = "M_ERROR", bits = 8, admits = {{0, 255}}, text = "The kind of an error"},
    D_LRBG = {
      name = "D_LRBG", bits = 15, admits = {{0, 32767}},
      text = "The distance from the balise group referred to, to the train's front, by Q_SCALE", unit = "m", step = "Q_SCALE",
      meanings = {[32767] = "unknown"}
    },
    Q_DIRLRBG = {
      name = "Q_DIRLRBG", bits = 2, admits = {{0, 3}},
      text = "The train's orientation to that balise group: 0 reverse, 1 nominal, 2 unknown",
      meanings = {[0] = "reverse", [1] = "nominal", [2] = "unknown"}
    },
    Q_DLRBG = {
      name = "Q_DLRBG", bits = 2, admits = {{0, 3}},
      text = "The side of that balise group on which the train's front is: 0 reverse, 1 nominal, 2 unknown",
      meanings = {[0] = "reverse", [1] = "nominal", [2] = "unknown"}
    },
    L_DOUBTOVER = {
      name = "L_DOUBTOVER", bits = 15, admits = {{0, 32767}},
      text = "How much less than measured the train may have run, with the group's inaccuracy, by Q_SCALE", unit = "m",
      step = "Q_SCALE", meanings = {[32767] = "unknown"}
    },
    L_DOUBTUNDER = {
      name = "L_DOUBTUNDER", bits = 15, admits = {{0, 32767}},
      text = "How much more than measured it may have run, with the group's inaccuracy, by Q_SCALE", unit = "m", step = "Q_SCALE",
      meanings = {[32767] = "unknown"}
    },
    Q_LENGTH = {
      name = "Q_LENGTH", bits = 2, admits = {{0, 3}},
      text = "The train's integrity: 0 no information, 1 confirmed by the monitoring device, 2 confirmed by the driver, 3 lost",
      meanings = {
        [0] = "no integrity information", [1] = "confirmed by integrity device", [2] = "confirmed by driver",
        [3] = "integrity lost"
      }
    },
    L_TRAININT = {
      name = "L_TRAININT", bits = 15, admits = {{0, 32767}},
      text = "The length of the train for which its integrity is confirmed, in metres", unit = "m", step = 1
    },
    V_TRAIN = {
      name = "V_TRAIN", bits = 7, admits = {{0, 127}}, text = "The speed of the train, in steps of 5 km/h", unit = "km/h",
      step = 5, most = 120
    },
    Q_DIRTRAIN = {
      name = "Q_DIRTRAIN", bits = 2, admits = {{0, 3}},
      text = "The direction of the train's movement: 0 reverse, 1 nominal, 2 unknown",
      meanings = {[0] = "reverse", [1] = "nominal", [2] = "unknown"}
    },
    M_MODE = {
      name = "M_MODE", bits = 4, admits = {{0, 15}}, text = "The mode of the on-board equipment",
      meanings = {
        [0] = "full supervision", [1] = "on sight", [2] = "staff responsible", [3] = "shunting", [4] = "unfitted",
        [5] = "sleeping", [6] = "stand by", [7] = "trip", [8] = "post trip", [9] = "system failure", [10] = "isolation",
        [11] = "non leading", [12] = "limited supervision", [13] = "national system", [14] = "reversing",
        [15] = "passive shunting"
      }
    },
    M_LEVEL = {
      name = "M_LEVEL", bits = 3, admits = {{0, 4}},
      text = "The level that it works in: 0 level 0, 1 a national system, 2 to 4 levels 1 to 3",
      meanings = {[0] = "level 0", [1] = "level NTC", [2] = "level 1", [3] = "level 2", [4] = "level 3"}
    },
    FILL = {name = "FILL", bits = 1, admits = {{0, 1}}, text = "A bit of a telegram after packet 255"},
    OTHER_DATA = {
      name = "OTHER_DATA", bits = 1, admits = {{0, 1}}, text = "A bit of a packet or a message whose row isn't known"
    },
    PADDING = {name = "PADDING", bits = 1, admits = {{0, 1}}, text = "A bit of a message after its packets"},
    PAD = {name = "PAD", bits = 1, admits = {{0, 0}}, text = "A bit that fills a telegram's last byte"}
  },
  kinds = {
    short = {
      name = "short telegram", bytes = {27, 27}, bits = 210,
      header = {"Q_UPDOWN", "M_VERSION_HEADER", "Q_MEDIA", "N_PIG", "N_TOTAL", "M_DUP", "M_MCOUNT", "NID_C", "NID_BG", "Q_LINK"},
      packets = "to_train", last_packet = 255, rest = "FILL", pad = "PAD"
    },
    long = {
      name = "long telegram", bytes = {104, 104}, bits = 830,
      header = {"Q_UPDOWN", "M_VERSION_HEADER", "Q_MEDIA", "N_PIG", "N_TOTAL", "M_DUP", "M_MCOUNT", "NID_C", "NID_BG", "Q_LINK"},
      packets = "to_train", last_packet = 255, rest = "FILL", pad = "PAD"
    },
    radio = {
      name = "message to the train", bytes = {3, 1023}, frame = {"NID_MESSAGE", "L_MESSAGE"},
      header = {"T_TRAIN", "M_ACK", "NID_LRBG"}, packets = "to_train", rest = "PADDING",
      kept = {bytes = {3, 1023}, rest = "OTHER_DATA"},
      list = {
        {nid = 2, name = "SR Authorisation", bytes = {{12, 12}, {15, 1023}}, row = {"Q_SCALE", "D_SR"}},
        {nid = 3, name = "Movement Authority", bytes = {{10, 10}, {13, 1023}}, row = {}},
        {nid = 6, name = "Recognition of exit from TRIP mode", bytes = {{10, 10}, {13, 1023}}, row = {}},
        {nid = 8, name = "Acknowledgement of Train Data", bytes = {{14, 14}, {17, 1023}}, row = {"T_TRAIN"}},
        {nid = 9, name = "Request to Shorten MA", bytes = {{10, 10}, {13, 1023}}, row = {}},
        {nid = 15, name = "Conditional Emergency Stop"},
        {nid = 16, name = "Unconditional Emergency Stop", bytes = {{10, 10}, {13, 1023}}, row = {"NID_EM"}},
        {nid = 18, name = "Revocation of Emergency Stop", bytes = {{10, 10}, {13, 1023}}, row = {"NID_EM"}},
        {nid = 24, name = "General message", bytes = {{10, 10}, {13, 1023}}, row = {}},
        {nid = 27, name = "SH Refused", bytes = {{14, 14}, {17, 1023}}, row = {"T_TRAIN"}},
        {nid = 28, name = "SH Authorised", bytes = {{14, 14}, {17, 1023}}, row = {"T_TRAIN"}},
        {nid = 32, name = "RBC/RIU System Version", bytes = {{11, 11}, {14, 1023}}, row = {"M_VERSION"}},
        {nid = 33, name = "MA with Shifted Location Reference", bytes = {{12, 12}, {15, 1023}}, row = {"Q_SCALE", "D_REF"}},
        {nid = 34, name = "Track Ahead Free Request"},
        {nid = 37, name = "Infill MA"},
        {nid = 38, name = "Initiation of a communication session", bytes = {{10, 10}, {13, 1023}}, row = {}},
        {nid = 39, name = "Acknowledgement of termination of a communication session", bytes = {{10, 10}, {13, 1023}}, row = {}},
        {nid = 40, name = "Train Rejected", bytes = {{10, 10}, {13, 1023}}, row = {}},
        {nid = 41, name = "Train Accepted", bytes = {{10, 10}, {13, 1023}}, row = {}},
        {nid = 43, name = "SoM position report confirmed by RBC", bytes = {{10, 10}, {13, 1023}}, row = {}},
        {nid = 45, name = "Assignment of coordinate system", bytes = {{10, 10}, {13, 1023}}, row = {"Q_ORIENTATION"}}
      }
    },
    train = {
      name = "message to the track", bytes = {3, 1023}, frame = {"NID_MESSAGE", "L_MESSAGE"}, header = {"T_TRAIN", "NID_ENGINE"},
      packets = "to_track", rest = "PADDING", kept = {bytes = {3, 1023}, rest = "OTHER_DATA"},
      list = {
        {nid = 129, name = "Validated Train Data"},
        {nid = 130, name = "Request for Shunting", bytes = {{10, 10}, {12, 1023}}, row = {}},
        {nid = 132, name = "MA Request"},
        {nid = 136, name = "Train Position Report", bytes = {{10, 10}, {12, 1023}}, row = {}},
        {nid = 137, name = "Request to shorten MA is granted", bytes = {{14, 14}, {16, 1023}}, row = {"T_TRAIN"}},
        {nid = 138, name = "Request to shorten MA is rejected", bytes = {{14, 14}, {16, 1023}}, row = {"T_TRAIN"}},
        {nid = 146, name = "Acknowledgement", bytes = {{14, 14}, {16, 1023}}, row = {"T_TRAIN"}},
        {nid = 147, name = "Acknowledgement of Emergency Stop"},
        {nid = 149, name = "Track Ahead Free Granted"},
        {nid = 150, name = "End of Mission", bytes = {{10, 10}, {12, 1023}}, row = {}},
        {nid = 153, name = "Radio infill request"},
        {nid = 154, name = "No compatible version supported"},
        {nid = 155, name = "Initiation of a communication session", bytes = {{10, 10}, {12, 1023}}, row = {}},
        {nid = 156, name = "Termination of a communication session", bytes = {{10, 10}, {12, 1023}}, row = {}},
        {nid = 157, name = "SoM Position Report", bytes = {{10, 10}, {13, 1023}}, row = {"Q_STATUS"}},
        {nid = 158, name = "Text message acknowledged by driver"},
        {nid = 159, name = "Session established", bytes = {{10, 10}, {12, 1023}}, row = {}}
      }
    }
  },
  packets = {
    to_train = {
      frame = {"NID_PACKET", "Q_DIR", "L_PACKET"}, kept = {bits = {23, 8191}, rest = "OTHER_DATA"},
      list = {
        {
          nid = 0, name = "Virtual Balise Cover marker", frame = {"NID_PACKET"}, only_in = {"short", "long"},
          text = "the marker of a virtual balise cover", bits = {14, 14}, row = {"NID_VBCMK"}
        },
        {
          nid = 2, name = "System Version order", text = "the version of the system, which the trackside orders", bits = {30, 30},
          row = {"M_VERSION"}
        },
        {nid = 3, name = "National Values"},
        {
          nid = 5, name = "Linking", text = "the linked balise groups ahead", bits = {69, 1598},
          row = {
            "Q_SCALE", "D_LINK", "Q_NEWCOUNTRY",
            {when = "Q_NEWCOUNTRY", is = {{1, 1}}, row = {"NID_C"}},
            "NID_BG", "Q_LINKORIENTATION", "Q_LINKREACTION", "Q_LOCACC", "N_ITER",
            {
              times = "N_ITER",
              row = {
                "D_LINK", "Q_NEWCOUNTRY",
                {when = "Q_NEWCOUNTRY", is = {{1, 1}}, row = {"NID_C"}},
                "NID_BG", "Q_LINKORIENTATION", "Q_LINKREACTION", "Q_LOCACC"
              }
            }
          }
        },
        {nid = 6, name = "Virtual Balise Cover order"},
        {
          nid = 12, name = "Level 1 Movement Authority", text = "the movement authority of level 1", bits = {73, 1463},
          row = {
            "Q_SCALE", "V_MAIN", "V_LOA", "T_LOA", "N_ITER",
            {
              times = "N_ITER",
              row = {
                "L_SECTION", "Q_SECTIONTIMER",
                {when = "Q_SECTIONTIMER", is = {{1, 1}}, row = {"T_SECTIONTIMER", "D_SECTIONTIMERSTOPLOC"}}
              }
            },
            "L_ENDSECTION", "Q_SECTIONTIMER",
            {when = "Q_SECTIONTIMER", is = {{1, 1}}, row = {"T_SECTIONTIMER", "D_SECTIONTIMERSTOPLOC"}},
            "Q_ENDTIMER",
            {when = "Q_ENDTIMER", is = {{1, 1}}, row = {"T_ENDTIMER", "D_ENDTIMERSTARTLOC"}},
            "Q_DANGERPOINT",
            {when = "Q_DANGERPOINT", is = {{1, 1}}, row = {"D_DP", "V_RELEASEDP"}},
            "Q_OVERLAP",
            {when = "Q_OVERLAP", is = {{1, 1}}, row = {"D_STARTOL", "T_OL", "D_OL", "V_RELEASEOL"}}
          }
        },
        {nid = 13, name = "Staff Responsible distance information from loop"},
        {
          nid = 15, name = "Level 2/3 Movement Authority", text = "the movement authority of levels 2 and 3", bits = {66, 1456},
          row = {
            "Q_SCALE", "V_LOA", "T_LOA", "N_ITER",
            {
              times = "N_ITER",
              row = {
                "L_SECTION", "Q_SECTIONTIMER",
                {when = "Q_SECTIONTIMER", is = {{1, 1}}, row = {"T_SECTIONTIMER", "D_SECTIONTIMERSTOPLOC"}}
              }
            },
            "L_ENDSECTION", "Q_SECTIONTIMER",
            {when = "Q_SECTIONTIMER", is = {{1, 1}}, row = {"T_SECTIONTIMER", "D_SECTIONTIMERSTOPLOC"}},
            "Q_ENDTIMER",
            {when = "Q_ENDTIMER", is = {{1, 1}}, row = {"T_ENDTIMER", "D_ENDTIMERSTARTLOC"}},
            "Q_DANGERPOINT",
            {when = "Q_DANGERPOINT", is = {{1, 1}}, row = {"D_DP", "V_RELEASEDP"}},
            "Q_OVERLAP",
            {when = "Q_OVERLAP", is = {{1, 1}}, row = {"D_STARTOL", "T_OL", "D_OL", "V_RELEASEOL"}}
          }
        },
        {
          nid = 16, name = "Repositioning Information",
          text = "how far it is to the end of a section whose length wasn't known before", bits = {40, 40},
          row = {"Q_SCALE", "L_SECTION"}
        },
        {
          nid = 21, name = "Gradient Profile", text = "the gradients ahead", bits = {54, 798},
          row = {"Q_SCALE", "D_GRADIENT", "Q_GDIR", "G_A", "N_ITER", {times = "N_ITER", row = {"D_GRADIENT", "Q_GDIR", "G_A"}}}
        },
        {
          nid = 27, name = "International Static Speed Profile", text = "the static speeds ahead", bits = {58, 8191},
          row = {
            "Q_SCALE", "D_STATIC", "V_STATIC", "Q_FRONT", "N_ITER",
            {
              times = "N_ITER",
              row = {
                "Q_DIFF",
                {when = "Q_DIFF", is = {{0, 0}}, row = {"NC_CDDIFF"}},
                {when = "Q_DIFF", is = {{1, 2}}, row = {"NC_DIFF"}},
                "V_DIFF"
              }
            },
            "N_ITER",
            {
              times = "N_ITER",
              row = {
                "D_STATIC", "V_STATIC", "Q_FRONT", "N_ITER",
                {
                  times = "N_ITER",
                  row = {
                    "Q_DIFF",
                    {when = "Q_DIFF", is = {{0, 0}}, row = {"NC_CDDIFF"}},
                    {when = "Q_DIFF", is = {{1, 2}}, row = {"NC_DIFF"}},
                    "V_DIFF"
                  }
                }
              }
            }
          }
        },
        {nid = 39, name = "Track Condition Change of traction system"},
        {nid = 40, name = "Track Condition Change of allowed current consumption"},
        {
          nid = 41, name = "Level Transition Order", text = "an order to change the level", bits = {63, 877},
          row = {
            "Q_SCALE", "D_LEVELTR", "M_LEVELTR",
            {when = "M_LEVELTR", is = {{1, 1}}, row = {"NID_NTC"}},
            "L_ACKLEVELTR", "N_ITER",
            {times = "N_ITER", row = {"M_LEVELTR", {when = "M_LEVELTR", is = {{1, 1}}, row = {"NID_NTC"}}, "L_ACKLEVELTR"}}
          }
        },
        {
          nid = 42, name = "Session Management", text = "an order to open or end a session with a radio block centre",
          bits = {113, 113}, row = {"Q_RBC", "NID_C", "NID_RBC", "NID_RADIO", "Q_SLEEPSESSION"}
        },
        {nid = 44, name = "Data used by applications outside the ERTMS/ETCS system"},
        {
          nid = 45, name = "Radio Network registration", text = "the radio network to register with", bits = {47, 47},
          row = {"NID_MN"}
        },
        {
          nid = 46, name = "Conditional Level Transition Order",
          text = "an order to change the level, if the train's isn't among these", bits = {31, 380},
          row = {
            "M_LEVELTR",
            {when = "M_LEVELTR", is = {{1, 1}}, row = {"NID_NTC"}},
            "N_ITER",
            {times = "N_ITER", row = {"M_LEVELTR", {when = "M_LEVELTR", is = {{1, 1}}, row = {"NID_NTC"}}}}
          }
        },
        {
          nid = 49, name = "List of balises for SH Area",
          text = "the balise groups over which the train may run in shunting mode", bits = {28, 803},
          row = {
            "N_ITER",
            {times = "N_ITER", row = {"Q_NEWCOUNTRY", {when = "Q_NEWCOUNTRY", is = {{1, 1}}, row = {"NID_C"}}, "NID_BG"}}
          }
        },
        {nid = 51, name = "Axle Load Speed Profile"},
        {nid = 52, name = "Permitted Braking Distance Information"},
        {
          nid = 57, name = "Movement Authority Request Parameters", text = "when the train asks for a movement authority",
          bits = {49, 49}, row = {"T_MAR", "T_TIMEOUTRQST", "T_CYCRQST"}
        },
        {
          nid = 58, name = "Position Report Parameters", text = "when and where the train reports its position", bits = {56, 552},
          row = {"Q_SCALE", "T_CYCLOC", "D_CYCLOC", "M_LOC", "N_ITER", {times = "N_ITER", row = {"D_LOC", "Q_LGTLOC"}}}
        },
        {
          nid = 63, name = "List of Balises in SR Authority",
          text = "the balise groups over which the train may run in staff responsible mode", bits = {28, 803},
          row = {
            "N_ITER",
            {times = "N_ITER", row = {"Q_NEWCOUNTRY", {when = "Q_NEWCOUNTRY", is = {{1, 1}}, row = {"NID_C"}}, "NID_BG"}}
          }
        },
        {
          nid = 64, name = "Inhibition of revocable TSRs from balises in L2/3",
          text = "revocable temporary restrictions from balises are inhibited", bits = {23, 23}, row = {}
        },
        {
          nid = 65, name = "Temporary Speed Restriction", text = "a temporary speed restriction", bits = {71, 71},
          row = {"Q_SCALE", "NID_TSR", "D_TSR", "L_TSR", "Q_FRONT", "V_TSR"}
        },
        {
          nid = 66, name = "Temporary Speed Restriction Revocation", text = "the revocation of a temporary speed restriction",
          bits = {31, 31}, row = {"NID_TSR"}
        },
        {nid = 67, name = "Track Condition Big Metal Masses"},
        {
          nid = 68, name = "Track Condition", text = "the track conditions ahead", bits = {41, 1119},
          row = {
            "Q_SCALE", "Q_TRACKINIT",
            {when = "Q_TRACKINIT", is = {{1, 1}}, row = {"D_TRACKINIT"}},
            {
              when = "Q_TRACKINIT", is = {{0, 0}},
              row = {
                "D_TRACKCOND", "L_TRACKCOND", "M_TRACKCOND", "N_ITER",
                {times = "N_ITER", row = {"D_TRACKCOND", "L_TRACKCOND", "M_TRACKCOND"}}
              }
            }
          }
        },
        {nid = 69, name = "Track Condition Station Platforms"},
        {nid = 70, name = "Route Suitability Data"},
        {nid = 71, name = "Adhesion Factor"},
        {
          nid = 72, name = "Packet for sending plain text messages", text = "a text, and when it is shown", bits = {92, 2182},
          row = {
            "Q_SCALE", "Q_TEXTCLASS", "Q_TEXTDISPLAY", "D_TEXTDISPLAY", "M_MODETEXTDISPLAY", "M_LEVELTEXTDISPLAY",
            {when = "M_LEVELTEXTDISPLAY", is = {{1, 1}}, row = {"NID_NTC"}},
            "L_TEXTDISPLAY", "T_TEXTDISPLAY", "M_MODETEXTDISPLAY", "M_LEVELTEXTDISPLAY",
            {when = "M_LEVELTEXTDISPLAY", is = {{1, 1}}, row = {"NID_NTC"}},
            "Q_TEXTCONFIRM",
            {
              when = "Q_TEXTCONFIRM", is = {{1, 3}},
              row = {
                "Q_CONFTEXTDISPLAY", "Q_TEXTREPORT",
                {when = "Q_TEXTREPORT", is = {{1, 1}}, row = {"NID_TEXTMESSAGE", "NID_C", "NID_RBC"}}
              }
            },
            "L_TEXT",
            {times = "L_TEXT", row = {"X_TEXT"}}
          }
        },
        {
          nid = 76, name = "Packet for sending fixed text messages",
          text = "the number of a text that the train knows, and when it is shown", bits = {92, 142},
          row = {
            "Q_SCALE", "Q_TEXTCLASS", "Q_TEXTDISPLAY", "D_TEXTDISPLAY", "M_MODETEXTDISPLAY", "M_LEVELTEXTDISPLAY",
            {when = "M_LEVELTEXTDISPLAY", is = {{1, 1}}, row = {"NID_NTC"}},
            "L_TEXTDISPLAY", "T_TEXTDISPLAY", "M_MODETEXTDISPLAY", "M_LEVELTEXTDISPLAY",
            {when = "M_LEVELTEXTDISPLAY", is = {{1, 1}}, row = {"NID_NTC"}},
            "Q_TEXTCONFIRM",
            {
              when = "Q_TEXTCONFIRM", is = {{1, 3}},
              row = {
                "Q_CONFTEXTDISPLAY", "Q_TEXTREPORT",
                {when = "Q_TEXTREPORT", is = {{1, 1}}, row = {"NID_TEXTMESSAGE", "NID_C", "NID_RBC"}}
              }
            },
            "Q_TEXT"
          }
        },
        {nid = 79, name = "Geographical Position Information"},
        {
          nid = 80, name = "Mode profile", text = "the areas ahead in which the train runs in another mode", bits = {85, 1790},
          row = {
            "Q_SCALE", "D_MAMODE", "M_MAMODE", "V_MAMODE", "L_MAMODE", "L_ACKMAMODE", "Q_MAMODE", "N_ITER",
            {times = "N_ITER", row = {"D_MAMODE", "M_MAMODE", "V_MAMODE", "L_MAMODE", "L_ACKMAMODE", "Q_MAMODE"}}
          }
        },
        {nid = 88, name = "Level Crossing information"},
        {nid = 90, name = "Track Ahead Free up to level 2/3 transition location"},
        {
          nid = 131, name = "RBC transition order", text = "handing over to another radio block centre", bits = {129, 129},
          row = {"Q_SCALE", "D_RBCTR", "NID_C", "NID_RBC", "NID_RADIO", "Q_SLEEPSESSION"}
        },
        {
          nid = 132, name = "Danger for Shunting information", text = "whether a train stops in shunting mode", bits = {24, 24},
          row = {"Q_ASPECT"}
        },
        {nid = 133, name = "Radio infill area information"},
        {nid = 134, name = "EOLM Packet"},
        {
          nid = 135, name = "Stop Shunting on desk opening", text = "the stop of shunting when the desk is opened",
          bits = {23, 23}, row = {}
        },
        {
          nid = 136, name = "Infill location reference", text = "the balise group at which the infill that follows begins",
          bits = {38, 48}, row = {"Q_NEWCOUNTRY", {when = "Q_NEWCOUNTRY", is = {{1, 1}}, row = {"NID_C"}}, "NID_BG"}
        },
        {
          nid = 137, name = "Stop if in Staff Responsible", text = "whether a train stops in staff responsible mode",
          bits = {24, 24}, row = {"Q_SRSTOP"}
        },
        {nid = 138, name = "Reversing area information"},
        {nid = 139, name = "Reversing supervision information"},
        {
          nid = 140, name = "Train running number from RBC", text = "the running number of the train", bits = {55, 55},
          row = {"NID_OPERATIONAL"}
        },
        {
          nid = 141, name = "Default Gradient for Temporary Speed Restriction",
          text = "the default gradient in temporary speed restrictions", bits = {32, 32}, row = {"Q_GDIR", "G_TSR"}
        },
        {nid = 143, name = "Session Management with neighbouring RIU"},
        {
          nid = 145, name = "Inhibition of balise group message consistency reaction",
          text = "the reaction to inconsistent balise groups is inhibited", bits = {23, 23}, row = {}
        },
        {nid = 180, name = "LSSMA display toggle order"},
        {nid = 181, name = "Generic LS function marker"},
        {
          nid = 254, name = "Default balise, loop or RIU information", text = "the default information of a balise",
          bits = {23, 23}, row = {}
        },
        {
          nid = 255, name = "end of information", frame = {"NID_PACKET"}, only_in = {"short", "long"},
          text = "the end of a telegram's packets", bits = {8, 8}, row = {}
        }
      }
    },
    to_track = {
      frame = {"NID_PACKET", "L_PACKET"}, kept = {bits = {21, 8191}, rest = "OTHER_DATA"},
      list = {
        {
          nid = 0, name = "Position Report", text = "the position of the train", bits = {114, 137},
          row = {
            "Q_SCALE", "NID_LRBG", "D_LRBG", "Q_DIRLRBG", "Q_DLRBG", "L_DOUBTOVER", "L_DOUBTUNDER", "Q_LENGTH",
            {when = "Q_LENGTH", is = {{1, 2}}, row = {"L_TRAININT"}},
            "V_TRAIN", "Q_DIRTRAIN", "M_MODE", "M_LEVEL",
            {when = "M_LEVEL", is = {{1, 1}}, row = {"NID_NTC"}}
          }
        },
        {
          nid = 1, name = "Position Report based on two balise groups",
          text = "the position of the train, with two balise groups", bits = {138, 161},
          row = {
            "Q_SCALE", "NID_LRBG", "NID_PRVLRBG", "D_LRBG", "Q_DIRLRBG", "Q_DLRBG", "L_DOUBTOVER", "L_DOUBTUNDER", "Q_LENGTH",
            {when = "Q_LENGTH", is = {{1, 2}}, row = {"L_TRAININT"}},
            "V_TRAIN", "Q_DIRTRAIN", "M_MODE", "M_LEVEL",
            {when = "M_LEVEL", is = {{1, 1}}, row = {"NID_NTC"}}
          }
        },
        {nid = 2, name = "Onboard supported system versions"},
        {nid = 3, name = "Onboard telephone numbers"},
        {nid = 4, name = "Error Reporting", text = "a fault", bits = {29, 29}, row = {"M_ERROR"}},
        {
          nid = 5, name = "Train running number", text = "the running number of the train", bits = {53, 53},
          row = {"NID_OPERATIONAL"}
        },
        {nid = 9, name = "Level 2/3 transition information"},
        {nid = 11, name = "Validated train data"},
        {nid = 44, name = "Data used by applications outside the ERTMS/ETCS system"}
      }
    }
  }
}
