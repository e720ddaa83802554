/* SPDX-License-Identifier: MIT OR Apache-2.0 */
/* The CAMEL decisions of osmo-msc's call control at trigger detection points. There is no CAP: each dialogue with a
 * gsmSCF fails at once, and the default call handling of the row says what becomes of the call. */
#include <inttypes.h>
#include <string.h>

#include <osmocom/core/talloc.h>
#include <osmocom/core/utils.h>
#include <osmocom/gsm/mncc.h>
#include <osmocom/msc/gsm_data.h>
#include <osmocom/msc/mncc.h>
#include <osmocom/msc/msc_camel_core.h>
#include <osmocom/msc/transaction.h>
#include <osmocom/msc/vlr.h>

/* A call from its set-up to its answer or its end: the event of the set-up, and the record by which it was decided. */
struct msc_camel_call {
	struct msc_camel *camel;
	camel_subscriber kept;
	camel_event event;
	bool releases_unknown; /* if there are no data of the subscriber */
	char imsi[GSM23003_IMSI_MAX_DIGITS + 1];
};

static int free_call(struct msc_camel_call *call)
{
	camel_free(&call->kept);
	return 0;
}

/* The basic service by the information transfer capability (TS 24.008 10.5.4.5), and for data by whether it is
 * asynchronous. The general bearer services stand for each rate. osmo-msc reads one bearer capability only. */
static camel_basic_service basic_service_of(const struct gsm_mncc *setup)
{
	uint8_t capability = setup->bearer_cap.transfer;
	camel_basic_service service = camel_basic_service_of(&capability, setup->fields & MNCC_F_BEARER_CAP ? 1 : 0);

	if (service.is_bearer && setup->bearer_cap.data.async)
		service.code = 0x17;
	return service;
}

/* Logs an answer, and returns whether the call is to be released: there is no gsmSCF that could be asked. If nothing
 * could be decided it is as without data. */
static bool act(const struct msc_camel_call *call, camel_status status, const camel_answer *answer)
{
	const camel_event *event = &call->event;
	char what[64];

	snprintf(what, sizeof(what), "DP %u %c%02x cause %u", event->dp, event->basic.is_bearer ? 'b' : 't',
		 event->basic.code, event->cause);
	if (status != CAMEL_OK) {
		LOG_CAMEL(call->imsi, LOGL_ERROR, "%s: %s", what, camel_status_name(status));
		return call->releases_unknown;
	}
	if (!answer->is_trigger) {
		LOG_CAMEL(call->imsi, LOGL_INFO, "%s front %" PRIu64 ": %s", what, answer->front,
			  camel_reason_name(answer->reason));
		return answer->reason == CAMEL_REASON_UNKNOWN && call->releases_unknown;
	}
	LOG_CAMEL(call->imsi, LOGL_INFO, "%s front %" PRIu64 ": service %u at gsmSCF %s, default %s", what,
		  answer->front, answer->key, osmo_hexdump_nospc(answer->scf.octets, answer->scf.length),
		  answer->is_release ? "release" : "continue");
	return answer->is_release;
}

/* Decides the event of a set-up, if the status of its data is CAMEL_OK, and keeps the record. Without memory for it the
 * later detection points are not asked, and the set-up is decided all the same. Without data the VTY says whether the
 * call goes on, but only of a subscriber who registered before CAMEL was enabled: of each other one the HLR has taken
 * them back, or sent such as are refused. */
static bool set_up(void *ctx, struct vlr_subscr *vsub, const camel_event *event, camel_status status,
		   struct msc_camel_call **kept)
{
	struct msc_camel *camel = vsub->vlr->camel;
	struct msc_camel_call *call = talloc_zero(ctx, struct msc_camel_call);
	bool is_there = false, is_released;
	camel_answer answer;

	OSMO_ASSERT(call);
	talloc_set_destructor(call, free_call);
	call->camel = camel;
	call->event = *event;
	call->releases_unknown = camel->releases_unknown || vsub->msc_camel_imsi || !vsub->loc_conf_in_hlr_ind;
	OSMO_STRLCPY_ARRAY(call->imsi, vsub->imsi);
	if (status == CAMEL_OK)
		status = msc_camel_imsi_of(vsub, &call->event.imsi);
	if (status == CAMEL_OK)
		status = camel_set_up(&camel->session, &call->event, &answer, &call->kept, &is_there);
	if (status == CAMEL_OUT_OF_MEMORY)
		status = camel_decide(&camel->session, &call->event, &answer);
	msc_camel_count(camel);
	is_released = act(call, status, &answer);
	if (is_there && !is_released)
		*kept = call;
	else
		talloc_free(call);
	return is_released;
}

/* A number of an emergency call, also if the mobile sends it in the SETUP of a normal call (TS 22.101): that to which
 * osmo-msc routes emergency calls, and those of the VTY. osmo-msc itself has no list of them. That a message is an
 * EMERGENCY SETUP says nothing: osmo-msc calls the number that a mobile sends in it, whichever that is. */
static bool is_emergency_number(const struct gsm_network *net, const char *digits)
{
	const struct msc_camel_number *number;

	if (net->emergency.route_to_msisdn && strcmp(digits, net->emergency.route_to_msisdn) == 0)
		return true;
	llist_for_each_entry(number, &net->vlr->camel->emergency_numbers, list) {
		if (strcmp(digits, number->digits) == 0)
			return true;
	}
	return false;
}

bool msc_camel_outgoing(struct gsm_trans *trans, const struct gsm_mncc *setup, const uint8_t *called, size_t count)
{
	camel_event event = { .dp = CAMEL_DP_COLLECTED_INFO, .basic = basic_service_of(setup) };
	camel_status status = camel_address_of(called, OSMO_MIN(count, sizeof(event.destination.octets)),
					       &event.destination);

	if (!trans->net->vlr->camel->is_enabled || is_emergency_number(trans->net, setup->called.number))
		return false;
	return set_up(trans, trans->vsub, &event, status, &trans->cc.camel);
}

bool msc_camel_incoming(struct vlr_subscr *vsub, const struct gsm_mncc *setup, struct msc_camel_call **call)
{
	camel_event event = { .dp = CAMEL_DP_TERM_ATTEMPT_AUTHORIZED, .basic = basic_service_of(setup) };

	if (!vsub->vlr->camel->is_enabled)
		return false;
	return set_up(vsub, vsub, &event, CAMEL_OK, call);
}

/* Decides a later detection point by the record of the set-up, unless CAMEL was switched off since. The call ends in
 * any case, whatever the answer is. */
static void decide_later(struct msc_camel_call **call, uint8_t dp, uint8_t cause)
{
	struct msc_camel *camel = (*call)->camel;
	camel_event *event = &(*call)->event;
	camel_answer answer;
	camel_status status;

	event->dp = dp;
	event->cause = cause;
	if (camel->is_enabled) {
		status = camel_decide_kept(&camel->session, &(*call)->kept, event, &answer);
		msc_camel_count(camel);
		act(*call, status, &answer);
	}
	TALLOC_FREE(*call);
}

void msc_camel_failed(struct msc_camel_call **call, uint8_t cause)
{
	if (*call)
		decide_later(call, CAMEL_DP_T_BUSY, cause);
}

void msc_camel_hand_over(struct msc_camel_call **call, struct gsm_trans *trans)
{
	if (trans)
		trans->cc.camel = talloc_steal(trans, *call);
	else
		msc_camel_failed(call, GSM48_CC_CAUSE_RESOURCE_UNAVAIL);
}

static uint8_t cause_or(const struct gsm_mncc *mncc, uint8_t otherwise)
{
	return mncc->fields & MNCC_F_CAUSE ? mncc->cause.value & 0x7f : otherwise;
}

/* Busy (17), not answered (18, 19) and not reachable (20) are no trigger detection points of the calling party. */
static bool is_routing_cause(uint8_t cause)
{
	return cause < GSM48_CC_CAUSE_USER_BUSY || cause > MSC_CAMEL_ABSENT;
}

/* The mobile has ended an incoming call before its answer, or a timer has. osmo-msc has the cause 18 for both timers:
 * that of the alerting mobile (T301) stands for 19. */
static void not_answered(struct gsm_trans *trans, const struct gsm_mncc *mncc)
{
	uint8_t cause = cause_or(mncc, GSM48_CC_CAUSE_USER_BUSY);

	if (cause == GSM48_CC_CAUSE_USER_NOTRESPOND && trans->cc.state == GSM_CSTATE_CALL_RECEIVED)
		cause = GSM48_CC_CAUSE_USER_ALERTING_NA;
	if (cause == GSM48_CC_CAUSE_USER_NOTRESPOND || cause == GSM48_CC_CAUSE_USER_ALERTING_NA)
		decide_later(&trans->cc.camel, CAMEL_DP_T_NO_ANSWER, cause);
	else
		decide_later(&trans->cc.camel, CAMEL_DP_T_BUSY, cause);
}

static bool is_incoming(const struct gsm_trans *trans)
{
	return trans->cc.camel->event.dp == CAMEL_DP_TERM_ATTEMPT_AUTHORIZED;
}

void msc_camel_to_mncc(struct gsm_trans *trans, int message, const struct gsm_mncc *mncc)
{
	if (!trans->cc.camel)
		return;
	switch (message) {
	case MNCC_DISC_IND:
	case MNCC_REL_IND:
	case MNCC_REJ_IND:
		if (is_incoming(trans))
			not_answered(trans, mncc);
		break; /* else the caller gives up, which is no trigger detection point */
	case MNCC_SETUP_CNF:
		break;
	default:
		return;
	}
	TALLOC_FREE(trans->cc.camel);
}

void msc_camel_from_mncc(struct gsm_trans *trans, const struct gsm_mncc *mncc)
{
	uint8_t cause = cause_or(mncc, GSM48_CC_CAUSE_NORMAL_UNSPEC);

	if (!trans->cc.camel)
		return;
	switch (mncc->msg_type) {
	case MNCC_DISC_REQ:
	case MNCC_REL_REQ:
	case MNCC_REJ_REQ:
		if (!is_incoming(trans) && is_routing_cause(cause))
			decide_later(&trans->cc.camel, CAMEL_DP_ROUTE_SELECT_FAILURE, cause);
		break; /* the caller of an incoming call gives up */
	case MNCC_SETUP_RSP:
		break;
	default:
		return;
	}
	TALLOC_FREE(trans->cc.camel);
}
