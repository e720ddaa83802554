/* SPDX-License-Identifier: MIT OR Apache-2.0 */
/* What an HLR, a mobile and MNCC do in the test of CAMEL trigger decisions, over the framework of osmo-msc's own
 * msc_vlr tests, with the arguments of MAP and the elements of TS 24.008 that they send. */
#pragma once

#include <stdbool.h>
#include <stdint.h>
#include <stdio.h>

#include "msc_vlr_tests.h"

/* A subscriber: the IMSI, as GSUP has it, and as a mobile sends it. */
struct subscriber {
	const char *imsi;
	const char *in_gsup;
	const char *identity;
};
extern const struct subscriber FIRST, SECOND;

/* Parts of MAP's arguments (TS 29.002), in BER. A row: detection point, serviceKey, gsmSCF-Address [0] 919471160000,
 * defaultCallHandling [1]. camelCapabilityHandling [0] is phase 3. */
#define ROW(dp, key, handling) "30110a01" dp "0201" key "80069194711600008101" handling
#define CONTINUE "00"
#define RELEASE "01"
#define PHASE_3 "800103"
/* o-CSI [0] and vt-CSI [7] of one to three rows */
#define O_CSI_1(row) "a0183013" row PHASE_3
#define O_CSI_2(row, next) "a02b3026" row next PHASE_3
#define VT_CSI_1(row) "a7183013" row PHASE_3
#define VT_CSI_3(row, next, last) "a73e3039" row next last PHASE_3
/* o-BcsmCamelTDP-CriteriaList [4]: at 2 destinations that begin with 4316, at 4 the causes 34 and 38 */
#define O_CRITERIA "a41e" "300f0a0102" "a00a800101a1050403913461" "300b0a0104" "a306040122040126"
/* t-BCSM-CAMEL-TDP-CriteriaList [8]: at 13 the causes 17 and 20, at 14 the cause 18 */
#define T_CRITERIA "a817" "300b0a010d" "a106040111040114" "30080a010e" "a103040112"
/* DeleteSubscriberDataArg of FIRST: specificCSI-Withdraw [15] of the O-CSI, and camelSubscriptionInfoWithdraw [9] */
#define WITHDRAWN_O "3510" "300e" "800809710000000156f0" "8f020080"
#define WITHDRAWN_ALL "350e" "300c" "800809710000000156f0" "8900"

/* o-BcsmCamelTDP-CriteriaList [4]: at 2 the basic service t11, and the call type forwarded */
#define OTHER_CRITERIA "a40d" "300b0a0102" "a103830111" "820100"
/* the same: at 2 ten numbers, so that the argument of 255 octets is the longest that the element has room for */
#define LONG_NUMBER_OF_16 "0409911111111111111111"
#define LONG_O_CRITERIA "a471" "306f0a0102" "a06a800101a165" LONG_NUMBER_OF_16 LONG_NUMBER_OF_16 LONG_NUMBER_OF_16 \
	LONG_NUMBER_OF_16 LONG_NUMBER_OF_16 LONG_NUMBER_OF_16 LONG_NUMBER_OF_16 LONG_NUMBER_OF_16 \
	"04059122222222" "040491346105"

#define DATA O_CSI_2(ROW("02", "64", CONTINUE), ROW("04", "65", RELEASE))
#define OTHER_DATA O_CSI_2(ROW("02", "6e", CONTINUE), ROW("04", "6f", CONTINUE))
#define RELEASING_DATA O_CSI_1(ROW("02", "66", RELEASE))
#define CALLED_DATA VT_CSI_3(ROW("0c", "67", CONTINUE), ROW("0d", "68", CONTINUE), ROW("0e", "69", RELEASE)) T_CRITERIA
#define CALLED_RELEASE VT_CSI_1(ROW("0c", "6a", RELEASE))

/* Bearer capabilities and called party numbers (TS 24.008): speech, facsimile group 3, asynchronous and synchronous
 * data; numbers of the nature international, and an emergency number of an unknown one. */
#define SPEECH "0406600402000581"
#define FAX "0407a3b88121156380"
#define ASYNCHRONOUS "0407a1b88121156380"
#define SYNCHRONOUS "0407a1b88120156380"
#define LISTED "5e0591346105f1"
#define NOT_LISTED "5e0591442005f1"
#define LONG_NUMBER "5e1791346105" "1111111111111111111111111111111111111111"
#define EMERGENCY_NUMBER "5e038111f2"

/* Messages with which a mobile calls, and the requests of a connection for them. */
#define SETUP "0385"
#define EMERGENCY_SETUP "038e"
#define CALL_REQUEST "052471"
#define EMERGENCY_REQUEST "052472"

/* Which requests of the library for memory are refused: those of each commit, those of the next one only, or all. The
 * next commit can be held. */
enum refusal { NO_REQUEST, OF_COMMITS, OF_COMMIT, EACH_REQUEST, HELD_COMMIT };
extern enum refusal refused;

/* Prints a line beside those of the glue, which can be muted. */
extern bool is_muted;
#define step(format, args...) printf("- " format "\n", ##args)

/* A test begins, with a heading and CAMEL enabled, and ends with no connection and no subscriber, and with it off. */
void begins(const char *what);
void ends(void);

/* The HLR sends a message, and is answered with one that begins with these octets. */
void hlr_sends(const struct subscriber *who, const char *type, const char *octets, const char *answer,
	       const char *cause);

/* The SS-Info information element with an InsertSubscriberDataArg of these contents of vlrCamelSubscriptionInfo. */
const char *argument_of(const char *contents);

/* The HLR sends data in an InsertSubscriberData, or an argument, which is refused with a cause of GMM. */
void inserts(const struct subscriber *who, const char *contents);
void insert_refused(const struct subscriber *who, const char *argument, const char *cause);

/* A location update with these data, or without CAMEL data, and its parts. The HLR may refuse it with a cause. */
void location_update(const struct subscriber *who, const char *contents);
void location_update_begins(const struct subscriber *who);
void location_update_ends(const struct subscriber *who, enum result_sent result);
void location_update_refused(const struct subscriber *who, uint8_t cause);

/* A command of the node `camel` of the VTY, and what the VTY returns. How many subscribers have a record. */
int configures(const char *command);
unsigned count_records(void);

/* The mobile asks for a connection. It sends a SETUP, of which MNCC is told; MNCC rejects it with a cause, or the
 * mobile ends it, and MNCC then. calls() is a call that finds no way: 34, no circuit or channel available. */
void connects(const struct subscriber *who, const char *request);
void sends_setup(const struct subscriber *who, const char *type, const char *bearer, const char *called);
void sets_up(const struct subscriber *who, const char *type, const char *bearer, const char *called);
void rejected_with(uint8_t cause);
void caller_disconnects(void);
void calls(const struct subscriber *who, const char *called);

/* A call by a message of this type that is released at DP 2, of which MNCC is told nothing. */
void calls_in_vain(const struct subscriber *who, const char *type);

/* The mobile asks for a connection for a call, but it is unconfirmed, so osmo-msc turns to the HLR, which is silent. */
void waits_for_hlr(const struct subscriber *who);

/* The mobile is switched off, or so it seems. */
void detaches(const struct subscriber *who);

/* MNCC sends a message of the call that is there, or sets one up to the subscriber, for which the mobile is paged, or
 * which is released at once, as if the mobile is detached. */
void mncc_sends(uint32_t message, uint8_t cause);
void is_called(const struct subscriber *who);
void called_in_vain(const struct subscriber *who);
void is_called_and_caller_gives_up(const struct subscriber *who);
void is_detached_and_called(const struct subscriber *who);

/* The mobile answers the paging, and has the SETUP; it sends a message of the call that it is called by, of which MNCC
 * is told. */
void is_paged(const struct subscriber *who);
void called_mobile_sends(const char *octets, uint32_t told, const char *imsi);

/* The connection of the mobile goes with what follows, and is gone. */
void released_by(const char *octets);

/* The tests of claimed IMSIs, and of the VTY. */
void test_claim_that_dies(void);
void test_claim_that_stays(void);
void test_two_entries(void);
void test_stranger_was_there_first(void);
void test_service_request_of_stranger(void);
void test_changed_imsi(void);
void test_owners(void);
void test_detach_by_stranger(void);
void test_refusal_that_nobody_asked_for(void);
void test_cancel_by_timer(void);
void test_settings(void);
void test_switch(void);
void test_shown_record(void);
void test_counters(void);
