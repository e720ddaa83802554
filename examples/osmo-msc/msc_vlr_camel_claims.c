/* SPDX-License-Identifier: MIT OR Apache-2.0 */
/* Tests of claimed IMSIs: nobody on the air who is not authenticated removes, keeps or changes a record. */
#include "msc_vlr_camel_steps.h"

/* A location update by a TMSI that the VLR does not know: the mobile is asked for its IMSI. */
static void comes_with_unknown_tmsi(void)
{
	dtap_expect_tx("051801");
	ms_sends_msg("050802008168000130" "05f4" "23422342");
	OSMO_ASSERT(dtap_tx_confirmed);
}

/* The Identity Response. After it the VLR asks the HLR: 08 for authentication, 04 for the location update. */
static void claims(const struct subscriber *who, const char *request)
{
	char expected[64], sent[64];

	snprintf(expected, sizeof(expected), "%s%s" CN_DOMAIN VLR_TO_HLR, request, who->in_gsup);
	snprintf(sent, sizeof(sent), "0559%s", who->identity);
	gsup_tx_expected = expected;
	gsup_tx_confirmed = false;
	ms_sends_msg(sent);
	OSMO_ASSERT(gsup_tx_confirmed);
	step("%u entries of the VLR", llist_count(&net->vlr->subscribers));
}

static void stranger_claims(const struct subscriber *who)
{
	net->authentication_required = true;
	comes_with_unknown_tmsi();
	claims(who, "08");
	net->authentication_required = false;
}

/* The HLR does not answer, or the mobile does not. */
static void goes_away(void)
{
	expect_bssap_clear();
	for (unsigned passed = 0; passed < 40 && !bssap_clear_sent; passed++)
		fake_time_passes(1, 0);
	OSMO_ASSERT(bssap_clear_sent);
	ran_sends_clear_complete();
	step("it goes away: %u entries of the VLR", llist_count(&net->vlr->subscribers));
}

/* The one connection waits, and what the mobile sends is on another one, until this one goes on. */
static struct msub *put_aside(void)
{
	struct msub *connection = g_msub;

	g_msub = NULL;
	return connection;
}

void test_claim_that_dies(void)
{
	begins("A stranger claims the IMSI of a subscriber in an Identity Response, and goes away");
	location_update(&FIRST, DATA);
	stranger_claims(&FIRST);
	goes_away();
	calls(&FIRST, LISTED);
	ends();
}

void test_claim_that_stays(void)
{
	begins("The subscriber leaves while a stranger claims the IMSI: the record goes, and no second Cancel comes");
	location_update(&FIRST, CALLED_DATA);
	stranger_claims(&FIRST);
	detaches(&FIRST);
	step("a call to the subscriber finds the stranger's entry");
	called_in_vain(&FIRST);
	goes_away();
	location_update(&FIRST, DATA);
	calls(&FIRST, LISTED);
	ends();
}

/* osmo-msc brings what the HLR sends to the first entry that has the IMSI. */
void test_two_entries(void)
{
	begins("A subscriber comes a second time, with an unknown TMSI, where no authentication is required");
	location_update(&FIRST, DATA CALLED_RELEASE);
	comes_with_unknown_tmsi();
	claims(&FIRST, "04");
	inserts(&FIRST, OTHER_DATA);
	goes_away();
	step("the data of the second location update stand, and none of the first");
	calls(&FIRST, LISTED);
	is_called_and_caller_gives_up(&FIRST);
	step("again, and the HLR ends it well without CAMEL data");
	comes_with_unknown_tmsi();
	claims(&FIRST, "04");
	hlr_sends(&FIRST, "06", "", NULL, "");
	goes_away();
	calls(&FIRST, LISTED);
	step("again, and the HLR is sick: the record stays, and calls of the subscriber wait for the HLR");
	comes_with_unknown_tmsi();
	claims(&FIRST, "04");
	inserts(&FIRST, CALLED_DATA);
	hlr_sends(&FIRST, "05", "020111", NULL, "");
	goes_away();
	waits_for_hlr(&FIRST);
	is_called_and_caller_gives_up(&FIRST);
	step("again, and the HLR refuses it");
	location_update(&FIRST, DATA);
	comes_with_unknown_tmsi();
	claims(&FIRST, "04");
	hlr_sends(&FIRST, "05", "020102", NULL, "");
	step("%u records", count_records());
	goes_away();
	waits_for_hlr(&FIRST);
	ends();
}

void test_stranger_was_there_first(void)
{
	struct msub *stranger;

	begins("What the HLR sends arrives at the entry of a stranger, who was there before the subscriber");
	net->authentication_required = true;
	comes_with_unknown_tmsi();
	net->authentication_required = false;
	stranger = put_aside();
	location_update(&FIRST, CALLED_DATA);
	g_msub = stranger;
	claims(&FIRST, "08");
	step("an InsertSubscriberData");
	inserts(&FIRST, CALLED_RELEASE);
	called_in_vain(&FIRST);
	step("CancelLocation");
	expect_bssap_clear();
	hlr_sends(&FIRST, "1c", "060100", "1e", "");
	OSMO_ASSERT(bssap_clear_sent);
	ran_sends_clear_complete();
	step("osmo-msc detaches the stranger, so a call of the subscriber waits for the HLR");
	waits_for_hlr(&FIRST);
	called_in_vain(&FIRST);
	location_update(&FIRST, DATA);
	calls(&FIRST, LISTED);
	ends();
}

void test_service_request_of_stranger(void)
{
	struct msub *subscriber;

	begins("A stranger asks for a service in the name of a subscriber, whose location update is with the HLR");
	location_update(&FIRST, CALLED_RELEASE);
	location_update_begins(&FIRST);
	subscriber = put_aside();
	net->authentication_required = true;
	expect_bssap_clear();
	connects(&FIRST, CALL_REQUEST);
	OSMO_ASSERT(cm_service_result_sent == RES_REJECT && bssap_clear_sent);
	ran_sends_clear_complete();
	net->authentication_required = false;
	g_msub = subscriber;
	step("the data come anew all the same");
	inserts(&FIRST, DATA);
	location_update_ends(&FIRST, RES_ACCEPT);
	calls(&FIRST, LISTED);
	is_called_and_caller_gives_up(&FIRST);
	ends();
}

/* osmo-msc changes no IMSI that is set; what would be, if it did. */
void test_changed_imsi(void)
{
	struct vlr_subscr *vsub;

	begins("The IMSI of an entry changes to that of another subscriber");
	location_update(&FIRST, DATA);
	location_update(&SECOND, OTHER_DATA);
	connects(&FIRST, CALL_REQUEST);
	vsub = vlr_subscr_find_by_imsi(net->vlr, FIRST.imsi, __func__);
	OSMO_ASSERT(vsub);
	vlr_subscr_set_imsi(vsub, SECOND.imsi);
	step("a call has the record of the IMSI that the HLR has accepted");
	sends_setup(&SECOND, SETUP, SPEECH, LISTED);
	rejected_with(34);
	step("so has the purge");
	vlr_subscr_rx_imsi_detach(vsub);
	vlr_subscr_put(vsub, __func__);
	calls(&SECOND, LISTED);
	step("and the HLR accepts another one for the entry");
	vsub = vlr_subscr_find_by_imsi(net->vlr, SECOND.imsi, __func__);
	OSMO_ASSERT(vsub);
	vlr_subscr_set_imsi(vsub, FIRST.imsi);
	vlr_subscr_put(vsub, __func__);
	location_update(&FIRST, DATA);
	calls(&FIRST, LISTED);
	ends();
}

void test_owners(void)
{
	begins("An entry whose data have come, or whom the HLR has accepted, takes its record with it");
	location_update_begins(&FIRST);
	inserts(&FIRST, DATA);
	goes_away();
	location_update(&FIRST, NULL);
	detaches(&FIRST);
	location_update(&FIRST, DATA);
	calls(&FIRST, LISTED);
	ends();
}

/* GSM authenticates no IMSI Detach, and osmo-msc removes the entry. */
void test_detach_by_stranger(void)
{
	char sent[64];

	begins("A stranger detaches the subscriber: the record goes with the entry, and comes with it again");
	location_update(&FIRST, DATA);
	snprintf(sent, sizeof(sent), "050130%s", FIRST.identity);
	expect_bssap_clear();
	ms_sends_msg(sent);
	OSMO_ASSERT(bssap_clear_sent);
	ran_sends_clear_complete();
	step("%u entries of the VLR", llist_count(&net->vlr->subscribers));
	location_update(&FIRST, DATA);
	calls(&FIRST, LISTED);
	ends();
}

void test_refusal_that_nobody_asked_for(void)
{
	begins("The HLR refuses a location update that nobody has requested");
	location_update(&FIRST, DATA);
	hlr_sends(&FIRST, "05", "020102", NULL, "");
	calls(&FIRST, LISTED);
	ends();
}

void test_cancel_by_timer(void)
{
	begins("The Cancel of a purge is refused memory, and then held: a timer tries it again");
	location_update(&FIRST, DATA);
	location_update(&SECOND, OTHER_DATA);
	refused = OF_COMMIT;
	detaches(&FIRST);
	refused = HELD_COMMIT;
	fake_time_passes(10, 0);
	step("the second try");
	fake_time_passes(10, 0);
	calls(&SECOND, LISTED);
	step("nothing is cancelled of a subscriber who has returned");
	refused = OF_COMMIT;
	detaches(&SECOND);
	location_update(&SECOND, DATA);
	fake_time_passes(10, 0);
	calls(&SECOND, LISTED);
	step("so it is with the Cancel of a location update that the HLR refuses");
	location_update_begins(&SECOND);
	refused = OF_COMMIT;
	location_update_refused(&SECOND, GMM_CAUSE_IMSI_UNKNOWN);
	is_called_and_caller_gives_up(&SECOND);
	called_in_vain(&SECOND);
	ends();
}
