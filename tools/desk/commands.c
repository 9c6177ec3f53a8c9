#include "commands.h"

#define NONE                                                                                                 \
    { NULL }

/* clang-format off */
const struct command commands[] = {
    {AMPLIFIER, 0x17, "MEreadCal", NOT_BUILT, "read a calibration value", "", NONE, NONE},
    {AMPLIFIER, 0x18, "MEwriteCal", NOT_BUILT, "write a calibration value", "", NONE, NONE},
    {AMPLIFIER, 0x19, "MEsetID", CLOSED_TRIES_LEFT, "unlock", " with #", {&field_code}, NONE},
    {AMPLIFIER, 0x1A, "MEgetIDstate", CLOSED, "read lock", "", NONE, {&field_lock}},
    {AMPLIFIER, 0x1B, "ReadSensorModel", CLOSED, "read model", "", NONE, {&field_model_read}},
    {AMPLIFIER, 0x1C, "WriteSensorModel", CLOSED_UNLOCKED, "set model", " to #", {&field_model}, NONE},
    {AMPLIFIER, 0x23, "StopTransmission", CLOSED, "stop sending", "", NONE, NONE},
    {AMPLIFIER, 0x24, "StartTransmission", CLOSED, "start sending", "", NONE, NONE},
    {AMPLIFIER, 0x50, "WriteDigiFiltCoeff", NOT_BUILT, "write a filter coefficient", "", NONE, NONE},
    {AMPLIFIER, 0x51, "GetDfiltOnOff", CLOSED, "read filter word", "", NONE, {&field_filter}},
    {AMPLIFIER, 0x52, "SetDfiltOnOff", CLOSED, "set filter word", " to #", {&field_filter}, NONE},
    {AMPLIFIER, 0x53, "ReadMaxMinVal", CLOSED, "read greatest and smallest value", " of channel #",
     {&field_channel}, {&field_indicator, &field_greatest, &field_smallest}},
    {AMPLIFIER, 0x54, "GetFTSensorCalArrNo", NOT_BUILT, "read the numbers of sensor calibrations", "", NONE, NONE},
    {AMPLIFIER, 0x55, "SetFTSensorCalArrNo", NOT_BUILT, "choose a sensor calibration", "", NONE, NONE},
    {BT121, 0xE0, "InitConfigMode", ALWAYS, "open configuration mode", "", NONE, {&field_version}},
    {BT121, 0xE1, "ExitConfigMode", OPEN, "close configuration mode", "", NONE, NONE},
    {BT121, 0xE2, "GetBTmaxPower", OPEN, "read Classic power", "", NONE, {&field_power}},
    {BT121, 0xE3, "bt_gap_set_max_power", OPEN, "set Classic power", " to #", {&field_power}, NONE},
    {BT121, 0xE4, "GetLEmaxPower", OPEN, "read LE power step", "", NONE, {&field_step}},
    {BT121, 0xE5, "le_gap_set_max_power", OPEN, "set LE power step", " to #", {&field_step}, NONE},
    {BT121, 0xE6, "GetBTmode", OPEN, "read mode", "", NONE, {&field_mode}},
    {BT121, 0xE7, "SetBTmode", OPEN, "set mode", " to #", {&field_mode}, NONE},
    {BT121, 0xE8, "system_get_local_name", OPEN, "read name", "", NONE, {&field_name}},
    {BT121, 0xE9, "SetName", OPEN, "set name", " to #", {&field_name}, NONE},
    {BT121, 0xEA, "GetBatteryVoltage", NOT_BUILT, "read the battery's voltage", "", NONE, NONE},
    {BT121, 0xEB, "SetInputType", OPEN, "set input type", " of channel # to #", {&field_input, &field_type}, NONE},
    {BT121, 0xEC, "dfu_reset", NOT_BUILT, "start the radio again", "", NONE, NONE},
    {BT121, 0xED, "GetGSVonOff", OPEN, "read on/off state", "", NONE, {&field_on_off}},
    {BT121, 0xEE, "SetGSVonoff", OPEN, "set on/off state", " to #", {&field_on_off}, NONE},
    {BT121, 0xEF, "system_reset_factory_settings", NOT_BUILT, "give the radio its first settings", "", NONE, NONE},
    {BT121, 0xF0, "GetInputType", OPEN, "read input type", " of channel #", {&field_input}, {&field_type}},
    {BT121, 0xF1, "SetDigitalOnOff", OPEN, "switch output", " # to #", {&field_output, &field_switch}, NONE},
    {BT121, 0xF2, "SetLoggerAlarmInterval", OPEN, "set interval", " to #", {&field_interval}, NONE},
    {BT121, 0xF3, "GetLoggerAlarmInterval", OPEN, "read interval", "", NONE, {&field_interval}},
};

const struct status_row statuses[] = {
    {STATUS_UNKNOWN, "no such command", "the number is not listed under this head"},
    {STATUS_NOT_BUILT, "known, but not built", "the number is listed as not built"},
    {STATUS_WRONG_COUNT, "wrong number of parameters",
     "the head announces more or fewer bytes than the command takes"},
    {STATUS_NO_ACCESS, "no access",
     "the first of these that applies: configuration mode is closed (BT121 commands other than E0); "
     "it is open (amplifier commands); the board is locked (1C); three wrong tries are used (19); "
     "the code is wrong (19), which adds a try"},
    {STATUS_TOO_BIG, "a parameter is too big",
     "the first parameter from the left that is out of its range is above it"},
    {STATUS_TOO_SMALL, "a parameter is too small",
     "the first parameter from the left that is out of its range is below it, or in its gap"},
    {STATUS_DONE, "done", "nothing above applies"},
};
/* clang-format on */

const size_t commands_count = sizeof commands / sizeof *commands;
const size_t statuses_count = sizeof statuses / sizeof *statuses;

const struct command *command_named(unsigned kind, uint8_t number) {
    for (size_t i = 0; i < commands_count; i++) {
        if (commands[i].kind == kind && commands[i].number == number)
            return &commands[i];
    }
    return NULL;
}

size_t fields_fewest(const struct field *const *fields) {
    size_t bytes = 0;
    for (size_t i = 0; i < FIELDS_MOST && fields[i] != NULL; i++)
        bytes += fields[i]->fewest;
    return bytes;
}

size_t fields_most(const struct field *const *fields) {
    size_t bytes = 0;
    for (size_t i = 0; i < FIELDS_MOST && fields[i] != NULL; i++)
        bytes += fields[i]->most;
    return bytes;
}

const char *kind_words(unsigned kind) { return kind == BT121 ? "BT121" : "amplifier"; }

unsigned kind_answered(uint8_t head) {
    switch (KIND_OF(head)) {
    case AMPLIFIER_REPLY:
        return AMPLIFIER;
    case BT121_REPLY:
        return BT121;
    default:
        return 0;
    }
}
