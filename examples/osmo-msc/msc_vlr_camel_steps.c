/* SPDX-License-Identifier: MIT OR Apache-2.0 */
#include <stdlib.h>
#include <string.h>

#include <camel.h>

#include "msc_vlr_camel_steps.h"

#include <osmocom/msc/gsm_04_08.h>

const struct subscriber FIRST = { "901700000010650", "010809710000000156f0", "089910070000106005" };
const struct subscriber SECOND = { "901700000010651", "010809710000000156f1", "089910070000106015" };

bool is_muted;

/* The call that the mobile makes, or is called by. */
enum { INCOMING = 0x423 };
static uint32_t callref;

enum refusal refused;
static bool is_committing;

void *__real_malloc(size_t size);
void *__real_realloc(void *old, size_t size);
camel_status __real_camel_commit_nonnull(camel_store *store, const camel_update *updates, size_t update_count,
					 camel_session *sessions, size_t session_count, size_t *rejected);

static bool is_refused(void)
{
	return refused == EACH_REQUEST || (refused == OF_COMMITS && is_committing);
}

void *__wrap_malloc(size_t size)
{
	return is_refused() ? NULL : __real_malloc(size);
}

void *__wrap_realloc(void *old, size_t size)
{
	return is_refused() ? NULL : __real_realloc(old, size);
}

/* What camel_commit calls. */
camel_status __wrap_camel_commit_nonnull(camel_store *store, const camel_update *updates, size_t update_count,
					 camel_session *sessions, size_t session_count, size_t *rejected)
{
	bool is_one = refused == OF_COMMIT;
	camel_status status;

	if (refused == HELD_COMMIT) {
		refused = NO_REQUEST;
		*rejected = update_count;
		return CAMEL_HELD;
	}
	if (is_one)
		refused = OF_COMMITS;
	is_committing = true;
	status = __real_camel_commit_nonnull(store, updates, update_count, sessions, session_count, rejected);
	is_committing = false;
	if (is_one)
		refused = NO_REQUEST;
	return status;
}

/* The diagnostics of a timer are left out: libosmogsm leaves an octet of such a cause undefined. */
int __real_gsm48_encode_cause(struct msgb *msg, int lv_only, const struct gsm_mncc_cause *cause);
int __wrap_gsm48_encode_cause(struct msgb *msg, int lv_only, const struct gsm_mncc_cause *cause)
{
	struct gsm_mncc_cause brief = *cause;

	brief.diag_len = 0;
	return __real_gsm48_encode_cause(msg, lv_only, &brief);
}

static void print_line(struct log_target *target, unsigned int level, const char *line)
{
	if (strncmp(line, "CAMEL", 5) == 0 && !is_muted)
		fputs(line, stdout);
}

/* The lines of the glue, without what surrounds them in a log. */
static void print_lines(void)
{
	static struct log_target *target;

	if (target)
		return;
	setvbuf(stdout, NULL, _IONBF, 0);
	target = log_target_create();
	OSMO_ASSERT(target);
	target->output = print_line;
	log_set_use_color(target, 0);
	log_set_print_timestamp(target, 0);
	log_set_print_category(target, 0);
	log_set_print_category_hex(target, 0);
	log_set_print_filename2(target, LOG_FILENAME_NONE);
	log_set_all_filter(target, 1);
	log_set_category_filter(target, DCAMEL, 1, LOGL_INFO);
	log_add_target(target);
}

void begins(const char *what)
{
	print_lines();
	printf("\n%s\n", what);
	fake_time_start();
	net->vlr->cfg.assign_tmsi = false;
	rx_from_ran = OSMO_RAT_GERAN_A;
	OSMO_ASSERT(configures("enable") == 0);
}

void ends(void)
{
	EXPECT_CONN_COUNT(0);
	is_muted = true;
	clear_vlr();
	is_muted = false;
	OSMO_ASSERT(configures("no enable") == 0);
}

void hlr_sends(const struct subscriber *who, const char *type, const char *octets, const char *answer,
	       const char *cause)
{
	char sent[600], expected[64];

	snprintf(sent, sizeof(sent), "%s%s%s" HLR_TO_VLR, type, who->in_gsup, octets);
	snprintf(expected, sizeof(expected), "%s%s%s", answer ? answer : "", who->in_gsup, cause);
	gsup_rx(sent, answer ? expected : NULL);
}

const char *argument_of(const char *contents)
{
	static char argument[600];
	unsigned count = strlen(contents) / 2;

	snprintf(argument, sizeof(argument), "35%02x3081%02xad81%02x%s", count + 6, count + 3, count, contents);
	return argument;
}

void inserts(const struct subscriber *who, const char *contents)
{
	hlr_sends(who, "10", argument_of(contents), "12", "");
}

void insert_refused(const struct subscriber *who, const char *argument, const char *cause)
{
	hlr_sends(who, "10", argument, "11", cause);
}

void location_update_begins(const struct subscriber *who)
{
	char expected[64], sent[64];

	snprintf(expected, sizeof(expected), "04%s" CN_DOMAIN VLR_TO_HLR, who->in_gsup);
	snprintf(sent, sizeof(sent), "050802008168000130%s", who->identity);
	lu_result_sent = RES_NONE;
	gsup_tx_expected = expected;
	gsup_tx_confirmed = false;
	ms_sends_msg(sent);
	OSMO_ASSERT(gsup_tx_confirmed);
}

static void hlr_ends(const struct subscriber *who, const char *type, const char *octets, enum result_sent result)
{
	expect_bssap_clear();
	hlr_sends(who, type, octets, NULL, "");
	OSMO_ASSERT(lu_result_sent == result);
	OSMO_ASSERT(bssap_clear_sent);
	ran_sends_clear_complete();
}

void location_update_ends(const struct subscriber *who, enum result_sent result)
{
	hlr_ends(who, "06", "", result);
}

void location_update_refused(const struct subscriber *who, uint8_t cause)
{
	char octets[16];

	snprintf(octets, sizeof(octets), "0201%02x", cause);
	hlr_ends(who, "05", octets, RES_REJECT);
}

void location_update(const struct subscriber *who, const char *contents)
{
	location_update_begins(who);
	if (contents)
		inserts(who, contents);
	else
		hlr_sends(who, "10", "0804032443f2", "12", "");
	location_update_ends(who, RES_ACCEPT);
}

void mncc_sends(uint32_t message, uint8_t cause)
{
	struct gsm_mncc mncc = { .msg_type = message, .callref = callref };

	if (cause)
		mncc_set_cause(&mncc, GSM48_CAUSE_LOC_PRN_S_LU, cause);
	mncc_tx_to_cc(net, &mncc);
}

void connects(const struct subscriber *who, const char *request)
{
	char sent[64];

	snprintf(sent, sizeof(sent), "%s03305886%s", request, who->identity);
	cm_service_result_sent = RES_NONE;
	ms_sends_msg(sent);
}

void sends_setup(const struct subscriber *who, const char *type, const char *bearer, const char *called)
{
	char sent[128];

	OSMO_ASSERT(cm_service_result_sent == RES_ACCEPT);
	snprintf(sent, sizeof(sent), "%s%s%s15020100", type, bearer, called);
	cc_to_mncc_expect_tx(who->imsi, MNCC_SETUP_IND);
	ms_sends_msg(sent);
	OSMO_ASSERT(cc_to_mncc_tx_confirmed);
	callref = cc_to_mncc_tx_got_callref;
}

void sets_up(const struct subscriber *who, const char *type, const char *bearer, const char *called)
{
	connects(who, CALL_REQUEST);
	sends_setup(who, type, bearer, called);
}

void rejected_with(uint8_t cause)
{
	char expected[16];

	snprintf(expected, sizeof(expected), "832a0802e1%02x", cause | 0x80);
	dtap_expect_tx(expected);
	expect_bssap_clear();
	mncc_sends(MNCC_REJ_REQ, cause);
	OSMO_ASSERT(dtap_tx_confirmed && bssap_clear_sent);
	ran_sends_clear_complete();
}

void calls(const struct subscriber *who, const char *called)
{
	sets_up(who, SETUP, SPEECH, called);
	rejected_with(34);
}

void calls_in_vain(const struct subscriber *who, const char *type)
{
	char sent[128];

	connects(who, CALL_REQUEST);
	dtap_expect_tx("832a0802e1a9");
	expect_bssap_clear();
	snprintf(sent, sizeof(sent), "%s" SPEECH LISTED "15020100", type);
	ms_sends_msg(sent);
	OSMO_ASSERT(dtap_tx_confirmed && bssap_clear_sent);
	ran_sends_clear_complete();
}

void waits_for_hlr(const struct subscriber *who)
{
	char expected[64];

	snprintf(expected, sizeof(expected), "04%s" CN_DOMAIN VLR_TO_HLR, who->in_gsup);
	gsup_tx_expected = expected;
	gsup_tx_confirmed = false;
	connects(who, CALL_REQUEST);
	OSMO_ASSERT(gsup_tx_confirmed && cm_service_result_sent == RES_NONE);
	expect_bssap_clear();
	fake_time_passes(31, 0);
	OSMO_ASSERT(cm_service_result_sent == RES_REJECT && bssap_clear_sent);
	ran_sends_clear_complete();
}

void caller_disconnects(void)
{
	cc_to_mncc_expect_tx("", MNCC_DISC_IND);
	ms_sends_msg("032502e090");
	OSMO_ASSERT(cc_to_mncc_tx_confirmed);
	dtap_expect_tx("832d0802e1a2");
	mncc_sends(MNCC_REL_REQ, 34);
	OSMO_ASSERT(dtap_tx_confirmed);
	cc_to_mncc_expect_tx("", MNCC_REL_CNF);
	expect_bssap_clear();
	ms_sends_msg("036a");
	OSMO_ASSERT(cc_to_mncc_tx_confirmed && bssap_clear_sent);
	ran_sends_clear_complete();
}

static void setup_request(const struct subscriber *who)
{
	struct gsm_mncc setup = { .msg_type = MNCC_SETUP_REQ, .callref = INCOMING };

	OSMO_STRLCPY_ARRAY(setup.imsi, who->imsi);
	mncc_tx_to_cc(net, &setup);
}

void called_in_vain(const struct subscriber *who)
{
	cc_to_mncc_expect_tx("", MNCC_REL_IND);
	setup_request(who);
	OSMO_ASSERT(cc_to_mncc_tx_confirmed);
}

void is_called(const struct subscriber *who)
{
	paging_expect_imsi(who->imsi);
	paging_sent = false;
	setup_request(who);
	OSMO_ASSERT(paging_sent);
	callref = INCOMING;
}

void is_called_and_caller_gives_up(const struct subscriber *who)
{
	is_called(who);
	cc_to_mncc_expect_tx("", MNCC_REL_CNF);
	mncc_sends(MNCC_REL_REQ, 16);
	OSMO_ASSERT(cc_to_mncc_tx_confirmed);
	fake_time_passes(11, 0);
}

void detaches(const struct subscriber *who)
{
	struct vlr_subscr *vsub = vlr_subscr_find_by_imsi(net->vlr, who->imsi, __func__);

	OSMO_ASSERT(vsub);
	vlr_subscr_rx_imsi_detach(vsub);
	vlr_subscr_put(vsub, __func__);
}

void is_detached_and_called(const struct subscriber *who)
{
	struct vlr_subscr *vsub = vlr_subscr_find_by_imsi(net->vlr, who->imsi, __func__);

	OSMO_ASSERT(vsub);
	vlr_subscr_rx_imsi_detach(vsub);
	called_in_vain(who);
	vlr_subscr_put(vsub, __func__);
}

void is_paged(const struct subscriber *who)
{
	dtap_expect_tx("0305");
	connects(who, "062707");
	OSMO_ASSERT(dtap_tx_confirmed);
}

void called_mobile_sends(const char *octets, uint32_t told, const char *imsi)
{
	cc_to_mncc_expect_tx(imsi, told);
	ms_sends_msg(octets);
	OSMO_ASSERT(cc_to_mncc_tx_confirmed);
}

void released_by(const char *octets)
{
	expect_bssap_clear();
	ms_sends_msg(octets);
	OSMO_ASSERT(bssap_clear_sent);
	ran_sends_clear_complete();
}
