/* SPDX-License-Identifier: MIT OR Apache-2.0 */
/* CAMEL trigger decisions in osmo-msc. What is compared is standard output: a heading of each step, and the lines of
 * the glue. */
#include <string.h>

#include <camel.h>

#include "msc_vlr_camel_steps.h"

static void test_criteria(void)
{
	begins("An O-CSI with criteria: of numbers at DP 2, of causes at DP 4");
	location_update(&FIRST, DATA O_CRITERIA);
	step("a listed number, and a listed cause");
	calls(&FIRST, LISTED);
	step("another number, and another cause");
	sets_up(&FIRST, SETUP, SPEECH, NOT_LISTED);
	rejected_with(3);
	step("a number of 22 octets, of which the first 20 are compared");
	calls(&FIRST, LONG_NUMBER);
	step("facsimile, asynchronous and synchronous data");
	sets_up(&FIRST, SETUP, FAX, LISTED);
	rejected_with(38);
	sets_up(&FIRST, SETUP, ASYNCHRONOUS, LISTED);
	rejected_with(38);
	sets_up(&FIRST, SETUP, SYNCHRONOUS, LISTED);
	rejected_with(38);
	ends();
}

static void test_release(void)
{
	begins("An O-CSI whose default call handling is release");
	location_update(&FIRST, RELEASING_DATA);
	calls_in_vain(&FIRST, SETUP);
	step("an EMERGENCY SETUP to a number that is none of emergency");
	calls_in_vain(&FIRST, EMERGENCY_SETUP);
	ends();
}

static void test_emergency(void)
{
	begins("Emergency calls are not asked");
	location_update(&FIRST, DATA);
	step("an EMERGENCY SETUP without a number");
	sets_up(&FIRST, EMERGENCY_SETUP, SPEECH, "");
	rejected_with(34);
	step("a SETUP and an EMERGENCY SETUP to 112, which is no emergency number here");
	calls(&FIRST, EMERGENCY_NUMBER);
	sets_up(&FIRST, EMERGENCY_SETUP, SPEECH, EMERGENCY_NUMBER);
	rejected_with(34);
	step("both to a number of the VTY");
	OSMO_ASSERT(configures("emergency-number 999") == 0 && configures("emergency-number 112") == 0);
	calls(&FIRST, EMERGENCY_NUMBER);
	sets_up(&FIRST, EMERGENCY_SETUP, SPEECH, EMERGENCY_NUMBER);
	rejected_with(34);
	OSMO_ASSERT(configures("no emergency-number 112") == 0);
	calls(&FIRST, EMERGENCY_NUMBER);
	OSMO_ASSERT(configures("no emergency-number 999") == 0);
	step("both, and one without a number, to the number to which osmo-msc routes emergency calls");
	net->emergency.route_to_msisdn = "112";
	calls(&FIRST, EMERGENCY_NUMBER);
	sets_up(&FIRST, EMERGENCY_SETUP, SPEECH, EMERGENCY_NUMBER);
	rejected_with(34);
	sets_up(&FIRST, EMERGENCY_SETUP, SPEECH, "");
	rejected_with(34);
	calls(&FIRST, LISTED);
	net->emergency.route_to_msisdn = NULL;
	ends();
}

/* osmo-msc calls the number that a modified mobile sends in an EMERGENCY SETUP, also if it has one of its own. */
static void test_claimed_emergency(void)
{
	begins("A mobile claims an emergency, and calls another number");
	location_update(&FIRST, DATA O_CRITERIA);
	for (unsigned at = 0; at < 8; at++) {
		const char *request = at & 1 ? EMERGENCY_REQUEST : CALL_REQUEST;
		const char *message = at & 2 ? EMERGENCY_SETUP : SETUP;

		net->emergency.route_to_msisdn = at & 4 ? "112" : NULL;
		step("request %s, message %s, emergency calls to %s", request, message, at & 4 ? "112" : "no number");
		connects(&FIRST, request);
		sends_setup(&FIRST, message, SPEECH, LISTED);
		rejected_with(34);
	}
	net->emergency.route_to_msisdn = NULL;
	ends();
}

static void test_not_asked_at_4(void)
{
	static const uint8_t causes[] = { 17, 18, 19, 20 };

	begins("What is not asked at DP 4");
	location_update(&FIRST, DATA);
	for (size_t at = 0; at < ARRAY_SIZE(causes); at++) {
		step("the cause %u", causes[at]);
		sets_up(&FIRST, SETUP, SPEECH, LISTED);
		rejected_with(causes[at]);
	}
	step("the caller gives up");
	sets_up(&FIRST, SETUP, SPEECH, LISTED);
	caller_disconnects();
	step("the call is answered, and ended");
	sets_up(&FIRST, SETUP, SPEECH, LISTED);
	dtap_expect_tx("8307");
	mncc_sends(MNCC_SETUP_RSP, 0);
	cc_to_mncc_expect_tx("", MNCC_SETUP_COMPL_IND);
	ms_sends_msg("03cf");
	dtap_expect_tx("832502e1a2");
	mncc_sends(MNCC_DISC_REQ, 34);
	OSMO_ASSERT(dtap_tx_confirmed);
	cc_to_mncc_expect_tx("", MNCC_REL_IND);
	dtap_expect_tx("832a");
	released_by("032d");
	ends();
}

static void test_record_of_set_up(void)
{
	begins("A second O-CSI is published during a call");
	location_update(&FIRST, DATA);
	sets_up(&FIRST, SETUP, SPEECH, LISTED);
	inserts(&FIRST, OTHER_DATA);
	step("the call has the record of its set-up");
	rejected_with(34);
	step("the next call has the new one");
	calls(&FIRST, LISTED);
	ends();
}

static void test_refused_data(void)
{
	begins("Data that are refused are answered so, and change nothing");
	location_update(&FIRST, DATA);
	step("an element that goes beyond its end");
	insert_refused(&FIRST, "35023005", "020160");
	step("a serviceKey above 2147483647");
	insert_refused(&FIRST, argument_of(O_CSI_1("30110a0102" "0204ffffffff" "800391947181" "0100")), "02015f");
	step("an O-CSI without rows");
	insert_refused(&FIRST, argument_of("a0023000"), "020164");
	step("criteria of a VT-CSI that is not stored");
	insert_refused(&FIRST, argument_of(T_CRITERIA), "020164");
	step("a DeleteSubscriberData that is none");
	hlr_sends(&FIRST, "14", "35023005", "15", "020160");
	calls(&FIRST, LISTED);
	step("a location update whose data are refused");
	location_update_begins(&FIRST);
	insert_refused(&FIRST, argument_of("a0023000"), "020164");
	location_update_ends(&FIRST, RES_ACCEPT);
	calls(&FIRST, LISTED);
	step("the first one of a subscriber: without data no call is set up, whatever the VTY says");
	location_update_begins(&SECOND);
	insert_refused(&SECOND, argument_of("a0023000"), "020164");
	location_update_ends(&SECOND, RES_ACCEPT);
	calls_in_vain(&SECOND, SETUP);
	ends();
}

static void test_withdrawal(void)
{
	begins("A withdrawal");
	location_update(&FIRST, DATA CALLED_RELEASE);
	step("of the O-CSI");
	hlr_sends(&FIRST, "14", WITHDRAWN_O, "16", "");
	calls(&FIRST, LISTED);
	step("it comes again");
	inserts(&FIRST, OTHER_DATA);
	calls(&FIRST, LISTED);
	step("of all CAMEL data");
	hlr_sends(&FIRST, "14", WITHDRAWN_ALL, "16", "");
	calls(&FIRST, LISTED);
	step("of the O-CSI in a location update: what comes behind it does not bring that back");
	location_update_begins(&FIRST);
	inserts(&FIRST, DATA);
	hlr_sends(&FIRST, "14", WITHDRAWN_O, "16", "");
	inserts(&FIRST, CALLED_RELEASE);
	location_update_ends(&FIRST, RES_ACCEPT);
	calls(&FIRST, LISTED);
	called_in_vain(&FIRST);
	step("at the beginning of one: the data come anew all the same");
	location_update_begins(&FIRST);
	hlr_sends(&FIRST, "14", WITHDRAWN_O, "16", "");
	inserts(&FIRST, DATA);
	location_update_ends(&FIRST, RES_ACCEPT);
	calls(&FIRST, LISTED);
	is_called_and_caller_gives_up(&FIRST);
	ends();
}

static void test_location_updates(void)
{
	begins("Location updates");
	location_update(&FIRST, DATA);
	step("the same data come again, in two operations");
	location_update_begins(&FIRST);
	inserts(&FIRST, DATA);
	inserts(&FIRST, O_CRITERIA);
	location_update_ends(&FIRST, RES_ACCEPT);
	calls(&FIRST, NOT_LISTED);
	step("of the second operation the data are refused, and the first one stands");
	location_update_begins(&FIRST);
	inserts(&FIRST, OTHER_DATA O_CRITERIA);
	insert_refused(&FIRST, argument_of(O_CRITERIA), "02015f");
	inserts(&FIRST, CALLED_RELEASE);
	location_update_ends(&FIRST, RES_ACCEPT);
	calls(&FIRST, LISTED);
	called_in_vain(&FIRST);
	step("a VT-CSI comes, and no O-CSI");
	location_update(&FIRST, CALLED_RELEASE);
	calls(&FIRST, LISTED);
	called_in_vain(&FIRST);
	step("no CAMEL data come");
	location_update(&FIRST, NULL);
	calls(&FIRST, LISTED);
	ends();
}

static void test_no_location_update(void)
{
	begins("Outside of a location update an Insert replaces what comes only");
	location_update(&FIRST, NULL);
	inserts(&FIRST, DATA);
	inserts(&FIRST, CALLED_RELEASE);
	calls(&FIRST, LISTED);
	step("so it is behind a location update that the HLR does not answer");
	location_update(&FIRST, CALLED_RELEASE);
	location_update_begins(&FIRST);
	expect_bssap_clear();
	fake_time_passes(31, 0);
	OSMO_ASSERT(lu_result_sent == RES_REJECT && bssap_clear_sent);
	ran_sends_clear_complete();
	inserts(&FIRST, DATA);
	called_in_vain(&FIRST);
	ends();
}

static void test_incoming(void)
{
	begins("Calls to a subscriber with a VT-CSI");
	location_update(&FIRST, CALLED_DATA);
	step("the mobile is busy");
	is_called(&FIRST);
	is_paged(&FIRST);
	expect_bssap_clear();
	called_mobile_sends("832a0802e091", MNCC_REJ_IND, "");
	ran_sends_clear_complete();
	step("the paging expires");
	is_called(&FIRST);
	cc_to_mncc_expect_tx("", MNCC_REL_IND);
	fake_time_passes(11, 0);
	OSMO_ASSERT(cc_to_mncc_tx_confirmed);
	step("the SETUP is not answered (T303)");
	is_called(&FIRST);
	is_paged(&FIRST);
	cc_to_mncc_expect_tx("", MNCC_REL_IND);
	dtap_expect_tx("032d0802e0e6");
	fake_time_passes(31, 0);
	OSMO_ASSERT(cc_to_mncc_tx_confirmed && dtap_tx_confirmed);
	released_by("836a");
	step("the mobile alerts, and nobody answers (T301)");
	is_called(&FIRST);
	is_paged(&FIRST);
	called_mobile_sends("8381", MNCC_ALERT_IND, "");
	cc_to_mncc_expect_tx("", MNCC_DISC_IND);
	dtap_expect_tx("032502e0e6");
	fake_time_passes(181, 0);
	OSMO_ASSERT(cc_to_mncc_tx_confirmed && dtap_tx_confirmed);
	cc_to_mncc_expect_tx("", MNCC_REL_IND);
	dtap_expect_tx("032a");
	released_by("832d");
	ends();
}

static void test_not_asked_at_13(void)
{
	begins("What is not asked at DP 13 and DP 14");
	location_update(&FIRST, CALLED_DATA);
	step("the call is answered");
	is_called(&FIRST);
	is_paged(&FIRST);
	called_mobile_sends("83c7", MNCC_SETUP_CNF, FIRST.imsi);
	called_mobile_sends("832502e091", MNCC_DISC_IND, "");
	dtap_expect_tx("032d");
	mncc_sends(MNCC_REL_REQ, 0);
	cc_to_mncc_expect_tx("", MNCC_REL_CNF);
	released_by("836a");
	step("the caller gives up while the mobile is paged, and while it alerts");
	is_called(&FIRST);
	cc_to_mncc_expect_tx("", MNCC_REL_CNF);
	mncc_sends(MNCC_REL_REQ, 16);
	OSMO_ASSERT(cc_to_mncc_tx_confirmed);
	fake_time_passes(11, 0);
	is_called(&FIRST);
	is_paged(&FIRST);
	called_mobile_sends("8381", MNCC_ALERT_IND, "");
	dtap_expect_tx("032502e190");
	mncc_sends(MNCC_DISC_REQ, 16);
	OSMO_ASSERT(dtap_tx_confirmed);
	cc_to_mncc_expect_tx("", MNCC_REL_IND);
	dtap_expect_tx("032a");
	released_by("832d");
	ends();
}

static void test_not_reached(void)
{
	begins("More that is asked at DP 13");
	location_update(&FIRST, DATA CALLED_DATA);
	step("the user refuses the call");
	is_called(&FIRST);
	is_paged(&FIRST);
	expect_bssap_clear();
	called_mobile_sends("832a0802e095", MNCC_REJ_IND, "");
	ran_sends_clear_complete();
	step("the subscriber is in another call");
	net->call_waiting = false;
	sets_up(&FIRST, SETUP, SPEECH, LISTED);
	called_in_vain(&FIRST);
	rejected_with(34);
	net->call_waiting = true;
	step("the subscriber is detached");
	is_detached_and_called(&FIRST);
	ends();
}

static void test_cancel_location(void)
{
	begins("CancelLocation during a call");
	location_update(&FIRST, DATA);
	sets_up(&FIRST, SETUP, SPEECH, LISTED);
	hlr_sends(&FIRST, "1c", "060100", "1e", "");
	step("another call is not set up on its connection, whatever the VTY says");
	dtap_expect_tx("932a0802e1a9");
	ms_sends_msg("1385" SPEECH LISTED "15020100");
	OSMO_ASSERT(dtap_tx_confirmed);
	step("the first one goes on with the record of its set-up");
	rejected_with(34);
	step("the subscriber returns");
	location_update(&FIRST, OTHER_DATA);
	calls(&FIRST, LISTED);
	ends();
}

static void test_refused_location_update(void)
{
	begins("A location update that the HLR refuses");
	is_muted = true;
	printf("- the record goes if the cause is one of:");
	for (unsigned cause = 0; cause <= UINT8_MAX; cause++) {
		location_update(&FIRST, CALLED_DATA);
		location_update_begins(&FIRST);
		location_update_refused(&FIRST, cause);
		if (count_records() == 0)
			printf(" %u", cause);
	}
	printf("\n");
	is_muted = false;
	step("no such cause: a call to the subscriber is asked, and one of the subscriber waits for the HLR");
	location_update(&FIRST, CALLED_DATA);
	location_update_begins(&FIRST);
	location_update_refused(&FIRST, GMM_CAUSE_NET_FAIL);
	is_called_and_caller_gives_up(&FIRST);
	waits_for_hlr(&FIRST);
	step("such a cause: a call to the subscriber is not set up, whatever the VTY says");
	location_update(&FIRST, CALLED_DATA);
	location_update_begins(&FIRST);
	location_update_refused(&FIRST, GMM_CAUSE_IMSI_UNKNOWN);
	called_in_vain(&FIRST);
	step("an InsertSubscriberData outside of a location update finds no record");
	insert_refused(&FIRST, argument_of(DATA), "020102");
	ends();
}

/* Data with a number criterion and a VT-CSI, so that also their publication asks for memory. */
#define GREAT_DATA DATA O_CRITERIA CALLED_DATA
#define OTHER_GREAT_DATA OTHER_DATA O_CRITERIA CALLED_DATA

static void test_refused_publication(void)
{
	begins("Memory is refused at a publication: what is answered as refused is never seen");
	location_update(&FIRST, GREAT_DATA);
	location_update(&SECOND, GREAT_DATA);
	step("data");
	refused = OF_COMMITS;
	insert_refused(&FIRST, argument_of(OTHER_GREAT_DATA), "020116");
	refused = NO_REQUEST;
	inserts(&SECOND, OTHER_GREAT_DATA);
	calls(&FIRST, LISTED);
	step("data in a location update");
	location_update_begins(&FIRST);
	refused = OF_COMMITS;
	insert_refused(&FIRST, argument_of(OTHER_GREAT_DATA), "020116");
	refused = NO_REQUEST;
	location_update_ends(&FIRST, RES_ACCEPT);
	inserts(&SECOND, GREAT_DATA);
	calls(&FIRST, LISTED);
	step("the second data of a location update, and a third operation comes");
	location_update_begins(&FIRST);
	inserts(&FIRST, CALLED_RELEASE);
	refused = OF_COMMITS;
	insert_refused(&FIRST, argument_of(DATA O_CRITERIA), "020116");
	refused = NO_REQUEST;
	inserts(&FIRST, "");
	location_update_ends(&FIRST, RES_ACCEPT);
	calls(&FIRST, LISTED);
	ends();
}

static void test_refused_withdrawals(void)
{
	begins("A publication of no data is refused");
	location_update(&FIRST, GREAT_DATA);
	location_update(&SECOND, GREAT_DATA);
	step("a withdrawal");
	refused = OF_COMMIT;
	hlr_sends(&FIRST, "14", WITHDRAWN_O, "15", "020116");
	inserts(&SECOND, OTHER_GREAT_DATA);
	calls(&FIRST, LISTED);
	step("CancelLocation, and all memory is refused");
	refused = EACH_REQUEST;
	hlr_sends(&FIRST, "1c", "060100", "1d", "020116");
	refused = NO_REQUEST;
	inserts(&SECOND, GREAT_DATA);
	calls(&FIRST, LISTED);
	step("the end of a location update without CAMEL data");
	location_update_begins(&FIRST);
	refused = OF_COMMIT;
	location_update_ends(&FIRST, RES_REJECT);
	step("the location update is made again");
	location_update(&FIRST, NULL);
	calls(&FIRST, LISTED);
	ends();
}

static void test_refused_record(void)
{
	begins("Memory is refused to the record of a set-up, which is decided without it");
	location_update(&FIRST, DATA);
	refused = EACH_REQUEST;
	sets_up(&FIRST, SETUP, SPEECH, LISTED);
	refused = NO_REQUEST;
	rejected_with(34);
	ends();
}

static void test_longest_argument(void)
{
	begins("An argument of 255 octets, for which the element has room");
	step("%zu octets", strlen(argument_of(DATA LONG_O_CRITERIA CALLED_DATA)) / 2 - 2);
	location_update(&FIRST, DATA LONG_O_CRITERIA CALLED_DATA);
	calls(&FIRST, LISTED);
	calls(&FIRST, NOT_LISTED);
	is_detached_and_called(&FIRST);
	ends();
}

msc_vlr_test_func_t msc_vlr_tests[] = {
	test_criteria,
	test_release,
	test_emergency,
	test_claimed_emergency,
	test_not_asked_at_4,
	test_record_of_set_up,
	test_refused_data,
	test_withdrawal,
	test_location_updates,
	test_no_location_update,
	test_incoming,
	test_not_asked_at_13,
	test_not_reached,
	test_cancel_location,
	test_refused_location_update,
	test_refused_publication,
	test_refused_withdrawals,
	test_refused_record,
	test_longest_argument,
	test_claim_that_dies,
	test_claim_that_stays,
	test_two_entries,
	test_stranger_was_there_first,
	test_service_request_of_stranger,
	test_changed_imsi,
	test_owners,
	test_detach_by_stranger,
	test_refusal_that_nobody_asked_for,
	test_cancel_by_timer,
	test_settings,
	test_switch,
	test_shown_record,
	test_counters,
	NULL
};
