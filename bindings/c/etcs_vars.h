/* The variables: number, name in C, name as the standard prints it. Written by bindings/header.py from the specs. */
#ifndef ETCS_VARS_H
#define ETCS_VARS_H

#include <stdint.h>

#define ETCS_VARS(X) \
    X(0, Q_UPDOWN, "Q_UPDOWN") \
    X(1, M_VERSION_HEADER, "M_VERSION") \
    X(2, Q_MEDIA, "Q_MEDIA") \
    X(3, N_PIG, "N_PIG") \
    X(4, N_TOTAL, "N_TOTAL") \
    X(5, M_DUP, "M_DUP") \
    X(6, M_MCOUNT, "M_MCOUNT") \
    X(7, NID_C, "NID_C") \
    X(8, NID_BG, "NID_BG") \
    X(9, Q_LINK, "Q_LINK") \
    X(10, NID_PACKET, "NID_PACKET") \
    X(11, Q_DIR, "Q_DIR") \
    X(12, L_PACKET, "L_PACKET") \
    X(13, Q_SCALE, "Q_SCALE") \
    X(14, N_ITER, "N_ITER") \
    X(15, NID_VBCMK, "NID_VBCMK") \
    X(16, D_LINK, "D_LINK") \
    X(17, Q_NEWCOUNTRY, "Q_NEWCOUNTRY") \
    X(18, Q_LINKORIENTATION, "Q_LINKORIENTATION") \
    X(19, Q_LINKREACTION, "Q_LINKREACTION") \
    X(20, Q_LOCACC, "Q_LOCACC") \
    X(21, V_MAIN, "V_MAIN") \
    X(22, V_LOA, "V_LOA") \
    X(23, T_LOA, "T_LOA") \
    X(24, L_SECTION, "L_SECTION") \
    X(25, Q_SECTIONTIMER, "Q_SECTIONTIMER") \
    X(26, T_SECTIONTIMER, "T_SECTIONTIMER") \
    X(27, D_SECTIONTIMERSTOPLOC, "D_SECTIONTIMERSTOPLOC") \
    X(28, L_ENDSECTION, "L_ENDSECTION") \
    X(29, Q_ENDTIMER, "Q_ENDTIMER") \
    X(30, T_ENDTIMER, "T_ENDTIMER") \
    X(31, D_ENDTIMERSTARTLOC, "D_ENDTIMERSTARTLOC") \
    X(32, Q_DANGERPOINT, "Q_DANGERPOINT") \
    X(33, D_DP, "D_DP") \
    X(34, V_RELEASEDP, "V_RELEASEDP") \
    X(35, Q_OVERLAP, "Q_OVERLAP") \
    X(36, D_STARTOL, "D_STARTOL") \
    X(37, T_OL, "T_OL") \
    X(38, D_OL, "D_OL") \
    X(39, V_RELEASEOL, "V_RELEASEOL") \
    X(40, D_GRADIENT, "D_GRADIENT") \
    X(41, Q_GDIR, "Q_GDIR") \
    X(42, G_A, "G_A") \
    X(43, G_TSR, "G_TSR") \
    X(44, D_STATIC, "D_STATIC") \
    X(45, V_STATIC, "V_STATIC") \
    X(46, Q_FRONT, "Q_FRONT") \
    X(47, Q_DIFF, "Q_DIFF") \
    X(48, NC_CDDIFF, "NC_CDDIFF") \
    X(49, NC_DIFF, "NC_DIFF") \
    X(50, V_DIFF, "V_DIFF") \
    X(51, D_LEVELTR, "D_LEVELTR") \
    X(52, M_LEVELTR, "M_LEVELTR") \
    X(53, NID_NTC, "NID_NTC") \
    X(54, L_ACKLEVELTR, "L_ACKLEVELTR") \
    X(55, Q_RBC, "Q_RBC") \
    X(56, NID_RBC, "NID_RBC") \
    X(57, NID_RADIO, "NID_RADIO") \
    X(58, Q_SLEEPSESSION, "Q_SLEEPSESSION") \
    X(59, NID_MN, "NID_MN") \
    X(60, NID_TSR, "NID_TSR") \
    X(61, D_TSR, "D_TSR") \
    X(62, L_TSR, "L_TSR") \
    X(63, V_TSR, "V_TSR") \
    X(64, Q_TEXTCLASS, "Q_TEXTCLASS") \
    X(65, Q_TEXTDISPLAY, "Q_TEXTDISPLAY") \
    X(66, D_TEXTDISPLAY, "D_TEXTDISPLAY") \
    X(67, M_MODETEXTDISPLAY, "M_MODETEXTDISPLAY") \
    X(68, M_LEVELTEXTDISPLAY, "M_LEVELTEXTDISPLAY") \
    X(69, L_TEXTDISPLAY, "L_TEXTDISPLAY") \
    X(70, T_TEXTDISPLAY, "T_TEXTDISPLAY") \
    X(71, Q_TEXTCONFIRM, "Q_TEXTCONFIRM") \
    X(72, Q_CONFTEXTDISPLAY, "Q_CONFTEXTDISPLAY") \
    X(73, Q_TEXTREPORT, "Q_TEXTREPORT") \
    X(74, NID_TEXTMESSAGE, "NID_TEXTMESSAGE") \
    X(75, L_TEXT, "L_TEXT") \
    X(76, X_TEXT, "X_TEXT") \
    X(77, Q_TEXT, "Q_TEXT") \
    X(78, Q_ASPECT, "Q_ASPECT") \
    X(79, Q_SRSTOP, "Q_SRSTOP") \
    X(80, NID_OPERATIONAL, "NID_OPERATIONAL") \
    X(81, M_VERSION, "M_VERSION") \
    X(82, NID_MESSAGE, "NID_MESSAGE") \
    X(83, L_MESSAGE, "L_MESSAGE") \
    X(84, T_TRAIN, "T_TRAIN") \
    X(85, M_ACK, "M_ACK") \
    X(86, NID_LRBG, "NID_LRBG") \
    X(87, D_SR, "D_SR") \
    X(88, NID_EM, "NID_EM") \
    X(89, D_REF, "D_REF") \
    X(90, Q_ORIENTATION, "Q_ORIENTATION") \
    X(91, T_MAR, "T_MAR") \
    X(92, T_TIMEOUTRQST, "T_TIMEOUTRQST") \
    X(93, T_CYCRQST, "T_CYCRQST") \
    X(94, T_CYCLOC, "T_CYCLOC") \
    X(95, D_CYCLOC, "D_CYCLOC") \
    X(96, M_LOC, "M_LOC") \
    X(97, D_LOC, "D_LOC") \
    X(98, Q_LGTLOC, "Q_LGTLOC") \
    X(99, Q_TRACKINIT, "Q_TRACKINIT") \
    X(100, D_TRACKINIT, "D_TRACKINIT") \
    X(101, D_TRACKCOND, "D_TRACKCOND") \
    X(102, L_TRACKCOND, "L_TRACKCOND") \
    X(103, M_TRACKCOND, "M_TRACKCOND") \
    X(104, D_MAMODE, "D_MAMODE") \
    X(105, M_MAMODE, "M_MAMODE") \
    X(106, V_MAMODE, "V_MAMODE") \
    X(107, L_MAMODE, "L_MAMODE") \
    X(108, L_ACKMAMODE, "L_ACKMAMODE") \
    X(109, Q_MAMODE, "Q_MAMODE") \
    X(110, D_RBCTR, "D_RBCTR") \
    X(111, NID_ENGINE, "NID_ENGINE") \
    X(112, Q_STATUS, "Q_STATUS") \
    X(113, NID_PRVLRBG, "NID_PRVLRBG") \
    X(114, M_ERROR, "M_ERROR") \
    X(115, D_LRBG, "D_LRBG") \
    X(116, Q_DIRLRBG, "Q_DIRLRBG") \
    X(117, Q_DLRBG, "Q_DLRBG") \
    X(118, L_DOUBTOVER, "L_DOUBTOVER") \
    X(119, L_DOUBTUNDER, "L_DOUBTUNDER") \
    X(120, Q_LENGTH, "Q_LENGTH") \
    X(121, L_TRAININT, "L_TRAININT") \
    X(122, V_TRAIN, "V_TRAIN") \
    X(123, Q_DIRTRAIN, "Q_DIRTRAIN") \
    X(124, M_MODE, "M_MODE") \
    X(125, M_LEVEL, "M_LEVEL") \
    X(126, FILL, "FILL") \
    X(127, OTHER_DATA, "OTHER_DATA") \
    X(128, PADDING, "PADDING") \
    X(129, PAD, "PAD")

enum {
#define ETCS_VAR(number, name, text) ETCS_VAR_##name = number,
    ETCS_VARS(ETCS_VAR)
#undef ETCS_VAR
    ETCS_VAR_COUNT
};

/* A variable's name; "" if no variable has the number. */
static inline const char *etcs_var_name(uint32_t var)
{
    static const char *const names[] = {
#define ETCS_VAR(number, name, text) text,
        ETCS_VARS(ETCS_VAR)
#undef ETCS_VAR
    };
    return var < ETCS_VAR_COUNT ? names[var] : "";
}

#endif
