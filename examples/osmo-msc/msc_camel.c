/* SPDX-License-Identifier: MIT OR Apache-2.0 */
/* The CAMEL data of osmo-msc's VLR in a store of libwenqolo, as the HLR sends them.
 *
 * GSUP has no CAMEL data. Here the SS-Info information element of an InsertSubscriberData or DeleteSubscriberData
 * request has the octets of MAP's argument (TS 29.002), at most 255, which no HLR sends.
 *
 * Anybody on the air can claim an IMSI. A location update with an unknown TMSI makes a second entry of the VLR, and an
 * Identity Response gives it any IMSI, before anything is authenticated. So an entry acts on a record only if it owns
 * it: from the first data of a location update that it has requested, or from the HLR's acceptance of one. osmo-msc
 * requests it once it has authenticated the mobile. In a network that requires no authentication a claim is all that
 * there is, so there too the HLR's answer makes the owner. The last owner's purge is the one that cancels. An entry
 * that owns nothing neither removes a record nor keeps one. What the HLR sends is of the IMSI, and not of the entry
 * that osmo-msc finds.
 *
 * Writer and session are in the event loop, and no handler leaves a look behind, so no publication is held. */
#include <inttypes.h>
#include <string.h>

#include <osmocom/core/talloc.h>
#include <osmocom/core/utils.h>
#include <osmocom/gsm/gsup.h>
#include <osmocom/msc/msc_camel_core.h>
#include <osmocom/msc/vlr.h>

/* A location update, from its request to its end: by which procedure, of which IMSI, whether CAMEL data have come, and
 * been withdrawn since, and those that are published, as one Insert. */
struct msc_camel_location {
	const struct osmo_fsm_inst *procedure;
	camel_imsi imsi;
	bool has_come, has_withdrawn;
	camel_update insert;
};

/* A Cancel that was refused memory, or held. */
struct refused_cancel {
	struct llist_head list;
	camel_imsi imsi;
};

/* What talloc does before it frees these. */
static int free_camel(struct msc_camel *camel)
{
	osmo_timer_del(&camel->timer);
	camel_free(&camel->session);
	camel_free(&camel->store);
	return 0;
}

static int free_location(struct msc_camel_location *location)
{
	camel_free(&location->insert);
	return 0;
}

static camel_status imsi_of(const struct vlr_subscr *vsub, camel_imsi *imsi)
{
	return camel_imsi_of_digits((const uint8_t *)vsub->imsi, strlen(vsub->imsi), imsi);
}

camel_status msc_camel_imsi_of(const struct vlr_subscr *vsub, camel_imsi *imsi)
{
	imsi->number = vsub->msc_camel_imsi;
	return imsi->number ? CAMEL_OK : imsi_of(vsub, imsi);
}

/* Publishes updates, and the session shows them from here on. If that is refused the HLR is answered so, and no later
 * publication shows any of them. */
static camel_status commit(struct msc_camel *camel, const camel_update *updates, size_t count)
{
	size_t rejected;
	camel_status status = camel_commit(&camel->store, updates, count, &camel->session, 1, &rejected);

	msc_camel_count(camel);
	return status;
}

/* The same of one update, which it frees, if the status of its data is CAMEL_OK. */
static camel_status commit_one(struct msc_camel *camel, camel_update *update, camel_status status)
{
	if (status == CAMEL_OK)
		status = commit(camel, update, 1);
	camel_free(update);
	return status;
}

/* The same of a Register or a Cancel. */
static camel_status commit_change(struct msc_camel *camel, uint8_t kind, const camel_imsi *imsi)
{
	camel_change change = { .kind = kind, .imsi = *imsi };
	camel_update update = CAMEL_EMPTY;

	return commit_one(camel, &update, camel_update_of(&change, &update));
}

/* What the HLR is answered, with a line if that is an error. GSUP has the causes of GMM in the place of MAP's errors:
 * which of them is which is ours. */
static enum gsm48_gmm_cause cause_of(const char *imsi, const char *what, camel_status status, uint64_t place)
{
	const char *name = camel_status_name(status);

	if (status != CAMEL_OK && place == CAMEL_NO_OCTET)
		LOG_CAMEL(imsi, LOGL_NOTICE, "%s refused: %s", what, name);
	else if (status != CAMEL_OK)
		LOG_CAMEL(imsi, LOGL_NOTICE, "%s refused: %s at octet %" PRIu64, what, name, place);
	switch (camel_map_error_of(status)) {
	case 0:
		return 0;
	case CAMEL_UNIDENTIFIED_SUBSCRIBER:
		return GMM_CAUSE_IMSI_UNKNOWN;
	case CAMEL_DATA_MISSING:
		return GMM_CAUSE_COND_IE_ERR;
	case CAMEL_UNEXPECTED_DATA_VALUE:
		return GMM_CAUSE_SEM_INCORR_MSG;
	case CAMEL_MAP_MISTYPED_PARAMETER:
		return GMM_CAUSE_INV_MAND_INFO;
	default:
		return GMM_CAUSE_CONGESTION;
	}
}

/* Whether another entry than this one, which may be NULL, owns the record of the IMSI. */
static bool has_owner(const struct msc_camel *camel, const camel_imsi *imsi, const struct vlr_subscr *other)
{
	const struct vlr_subscr *vsub;

	llist_for_each_entry(vsub, &camel->vlr->subscribers, list) {
		if (vsub != other && vsub->msc_camel_imsi == imsi->number)
			return true;
	}
	return false;
}

/* The owners of the record of this IMSI are unconfirmed, also those that osmo-msc does not see: it asks the HLR before
 * their next call. If the HLR says that there is no subscriber here, none owns it from here on. */
static void unconfirm(struct msc_camel *camel, const camel_imsi *imsi, bool is_gone)
{
	struct vlr_subscr *vsub;

	llist_for_each_entry(vsub, &camel->vlr->subscribers, list) {
		if (vsub->msc_camel_imsi != imsi->number)
			continue;
		vsub->sub_dataconf_by_hlr_ind = false;
		vsub->loc_conf_in_hlr_ind = false;
		if (is_gone)
			vsub->msc_camel_imsi = 0;
	}
}

static void try_again_later(struct msc_camel *camel, const camel_imsi *imsi)
{
	struct refused_cancel *refused = talloc_zero(camel, struct refused_cancel);

	OSMO_ASSERT(refused);
	refused->imsi = *imsi;
	llist_add_tail(&refused->list, &camel->cancels);
	if (!osmo_timer_pending(&camel->timer))
		osmo_timer_schedule(&camel->timer, MSC_CAMEL_CANCEL_INTERVAL, 0);
}

/* A Cancel that nobody is answered. */
static void cancel_unanswered(struct msc_camel *camel, const camel_imsi *imsi, const char *what)
{
	camel_status status = commit_change(camel, CAMEL_UPDATE_CANCEL, imsi);
	camel_imsi_digits digits;

	if (camel_digits_of_imsi(imsi, &digits) == CAMEL_OK)
		cause_of(digits.characters, what, status, CAMEL_NO_OCTET);
	if (status == CAMEL_OUT_OF_MEMORY || status == CAMEL_HELD)
		try_again_later(camel, imsi);
}

/* Of a subscriber who has returned nothing is cancelled. */
static void try_cancels(void *data)
{
	struct msc_camel *camel = data;
	struct refused_cancel *refused, *next;
	LLIST_HEAD(due);

	llist_splice_init(&camel->cancels, &due);
	llist_for_each_entry_safe(refused, next, &due, list) {
		llist_del(&refused->list);
		if (!has_owner(camel, &refused->imsi, NULL))
			cancel_unanswered(camel, &refused->imsi, "the Cancel by the timer");
		talloc_free(refused);
	}
}

/* An entry of the VLR that has no owned record is that of a mobile of which nothing but a claim is known. */
void msc_camel_purge(struct vlr_subscr *vsub)
{
	camel_imsi imsi = { vsub->msc_camel_imsi };

	vsub->msc_camel_imsi = 0;
	if (imsi.number && !has_owner(vsub->vlr->camel, &imsi, vsub))
		cancel_unanswered(vsub->vlr->camel, &imsi, "the Cancel of a purge");
}

static void own(struct vlr_subscr *vsub, const camel_imsi *imsi)
{
	if (vsub->msc_camel_imsi != imsi->number)
		msc_camel_purge(vsub);
	vsub->msc_camel_imsi = imsi->number;
}

static void end_location(struct vlr_subscr *vsub)
{
	TALLOC_FREE(vsub->msc_camel_location);
}

/* The entry whose location update of this IMSI is with the HLR, or NULL. GSUP answers an IMSI, and osmo-msc takes the
 * first entry that has it. */
static struct vlr_subscr *find_requester(struct msc_camel *camel, const camel_imsi *imsi)
{
	struct vlr_subscr *vsub;

	llist_for_each_entry(vsub, &camel->vlr->subscribers, list) {
		if (vsub->msc_camel_location && vsub->msc_camel_location->imsi.number == imsi->number)
			return vsub;
	}
	return NULL;
}

/* Of two location updates of one IMSI the later one stands: GSUP has no number of a dialogue. */
void msc_camel_location_requested(struct vlr_subscr *vsub, const struct osmo_fsm_inst *procedure)
{
	struct msc_camel *camel = vsub->vlr->camel;
	struct vlr_subscr *other;
	camel_imsi imsi;

	end_location(vsub);
	if (!camel->is_enabled || imsi_of(vsub, &imsi) != CAMEL_OK)
		return;
	other = find_requester(camel, &imsi);
	if (other)
		end_location(other);
	vsub->msc_camel_location = talloc_zero(vsub, struct msc_camel_location);
	OSMO_ASSERT(vsub->msc_camel_location);
	talloc_set_destructor(vsub->msc_camel_location, free_location);
	vsub->msc_camel_location->procedure = procedure;
	vsub->msc_camel_location->imsi = imsi;
}

/* An entry may have two procedures, one of them of a mobile that is not authenticated. */
void msc_camel_procedure_ended(struct vlr_subscr *vsub, const struct osmo_fsm_inst *procedure)
{
	if (vsub && vsub->msc_camel_location && vsub->msc_camel_location->procedure == procedure)
		end_location(vsub);
}

/* Makes the Insert of all that has come in a location update: what is kept, which stays as it is, and then this. */
static camel_status join(const struct msc_camel_location *location, const struct osmo_gsup_message *gsup,
			 camel_update *all, uint64_t *place)
{
	camel_update next = CAMEL_EMPTY;
	camel_status status = camel_update_of_map(CAMEL_INSERT_SUBSCRIBER_DATA, &location->imsi, gsup->ss_info,
						  gsup->ss_info_len, &next, place);

	if (status != CAMEL_OK)
		return status;
	if (!location->insert.is_full)
		return camel_move(all, &next);
	status = camel_update_join(&location->insert, &next, all);
	camel_free(&next);
	return status;
}

/* In a location update the data come anew: a Register goes before them, and both are accepted, or neither is. */
static camel_status insert_anew(struct vlr_subscr *vsub, const struct osmo_gsup_message *gsup, uint64_t *place)
{
	struct msc_camel *camel = vsub->vlr->camel;
	struct msc_camel_location *location = vsub->msc_camel_location;
	camel_change change = { .kind = CAMEL_UPDATE_REGISTER, .imsi = location->imsi };
	camel_update updates[2] = { CAMEL_EMPTY, CAMEL_EMPTY };
	camel_status status = join(location, gsup, &updates[1], place);

	if (status == CAMEL_OK)
		status = camel_update_of(&change, &updates[0]);
	if (status == CAMEL_OK)
		status = commit(camel, updates, 2);
	if (status == CAMEL_OK) {
		own(vsub, &location->imsi);
		camel_free(&location->insert);
		status = camel_move(&location->insert, &updates[1]);
	}
	camel_free(&updates[0]);
	camel_free(&updates[1]);
	return status;
}

/* Commits what an operation by itself brings. */
static camel_status commit_map(struct msc_camel *camel, uint8_t operation, const camel_imsi *imsi,
			       const struct osmo_gsup_message *gsup, uint64_t *place)
{
	camel_update update = CAMEL_EMPTY;
	camel_status status = camel_update_of_map(operation, imsi, gsup->ss_info, gsup->ss_info_len, &update, place);

	return commit_one(camel, &update, status);
}

enum gsm48_gmm_cause msc_camel_insert(struct vlr_subscr *vsub, const struct osmo_gsup_message *gsup)
{
	struct msc_camel *camel = vsub->vlr->camel;
	struct vlr_subscr *requester = NULL;
	uint64_t place = CAMEL_NO_OCTET;
	camel_imsi imsi;
	camel_status status;

	if (!camel->is_enabled || !gsup->ss_info_len)
		return 0;
	status = imsi_of(vsub, &imsi);
	if (status == CAMEL_OK)
		requester = find_requester(camel, &imsi);
	if (requester)
		requester->msc_camel_location->has_come = true;
	if (requester && !requester->msc_camel_location->has_withdrawn)
		status = insert_anew(requester, gsup, &place);
	else if (status == CAMEL_OK)
		status = commit_map(camel, CAMEL_INSERT_SUBSCRIBER_DATA, &imsi, gsup, &place);
	return cause_of(vsub->imsi, "InsertSubscriberData", status, place);
}

/* If no CAMEL data have come, the subscriber has none. The location update fails if that can't be published. */
static camel_status end_well(struct msc_camel *camel, struct vlr_subscr *requester)
{
	struct msc_camel_location *location = requester->msc_camel_location;
	camel_status status = CAMEL_OK;

	if (!location->has_come)
		status = commit_change(camel, CAMEL_UPDATE_REGISTER, &location->imsi);
	if (status == CAMEL_OK)
		own(requester, &location->imsi);
	end_location(requester);
	return status;
}

enum gsm48_gmm_cause msc_camel_location_updated(struct vlr_subscr *vsub)
{
	struct msc_camel *camel = vsub->vlr->camel;
	struct vlr_subscr *requester;
	camel_imsi imsi;

	if (!camel->is_enabled || imsi_of(vsub, &imsi) != CAMEL_OK)
		return 0;
	requester = find_requester(camel, &imsi);
	return requester ? cause_of(vsub->imsi, "UpdateLocation", end_well(camel, requester), CAMEL_NO_OCTET) : 0;
}

/* In a location update the kept Insert would bring back what this withdraws, so later data are Inserts of their own. */
bool msc_camel_delete(struct vlr_subscr *vsub, const struct osmo_gsup_message *gsup, enum gsm48_gmm_cause *cause)
{
	struct msc_camel *camel = vsub->vlr->camel;
	struct vlr_subscr *requester = NULL;
	uint64_t place = CAMEL_NO_OCTET;
	camel_imsi imsi;
	camel_status status;

	if (!camel->is_enabled || !gsup->ss_info_len)
		return false;
	status = imsi_of(vsub, &imsi);
	if (status == CAMEL_OK)
		status = commit_map(camel, CAMEL_DELETE_SUBSCRIBER_DATA, &imsi, gsup, &place);
	if (status == CAMEL_OK)
		requester = find_requester(camel, &imsi);
	if (requester)
		requester->msc_camel_location->has_withdrawn = requester->msc_camel_location->insert.is_full;
	*cause = cause_of(vsub->imsi, "DeleteSubscriberData", status, place);
	return true;
}

/* If this fails the HLR is answered so, and the record stays: nothing is tried again. */
enum gsm48_gmm_cause msc_camel_cancel(struct vlr_subscr *vsub)
{
	struct msc_camel *camel = vsub->vlr->camel;
	camel_imsi imsi;
	camel_status status;

	if (!camel->is_enabled)
		return 0;
	status = imsi_of(vsub, &imsi);
	if (status == CAMEL_OK)
		status = commit_change(camel, CAMEL_UPDATE_CANCEL, &imsi);
	if (status == CAMEL_OK)
		unconfirm(camel, &imsi, true);
	return cause_of(vsub->imsi, "CancelLocation", status, CAMEL_NO_OCTET);
}

/* Whether the cause with which the HLR refuses a location update says that the subscription is gone, or does not hold
 * here. These are the causes of GMM at which a mobile gives up its registration (TS 24.008 4.4.4.7 (?)), and 8, in the
 * place of MAP's unknownSubscriber, unknownEquipment and roamingNotAllowed. Each other one, as that of a sick HLR, or
 * none, says nothing of the subscription. */
static bool is_subscription_gone(enum gsm48_gmm_cause cause)
{
	switch (cause) {
	case GMM_CAUSE_IMSI_UNKNOWN:
	case GMM_CAUSE_ILLEGAL_MS:
	case GMM_CAUSE_ILLEGAL_ME:
	case GMM_CAUSE_GPRS_OTHER_NOTALLOWED:
	case GMM_CAUSE_PLMN_NOTALLOWED:
	case GMM_CAUSE_LA_NOTALLOWED:
	case GMM_CAUSE_ROAMING_NOTALLOWED:
	case GMM_CAUSE_NO_SUIT_CELL_IN_LA:
		return true;
	default:
		return false;
	}
}

void msc_camel_location_refused(struct vlr_subscr *vsub, enum gsm48_gmm_cause cause)
{
	struct msc_camel *camel = vsub->vlr->camel;
	struct vlr_subscr *requester;
	camel_imsi imsi;

	if (!camel->is_enabled || imsi_of(vsub, &imsi) != CAMEL_OK)
		return;
	requester = find_requester(camel, &imsi);
	if (!requester)
		return;
	end_location(requester);
	unconfirm(camel, &imsi, is_subscription_gone(cause));
	if (is_subscription_gone(cause))
		cancel_unanswered(camel, &imsi, "the Cancel of a location update");
	else
		LOG_CAMEL(vsub->imsi, LOGL_NOTICE, "UpdateLocation failed with cause %u, which cancels nothing", cause);
}

struct msc_camel *msc_camel_alloc(struct vlr_instance *vlr)
{
	struct msc_camel *camel = talloc_zero(vlr, struct msc_camel);

	OSMO_ASSERT(camel);
	camel->vlr = vlr;
	INIT_LLIST_HEAD(&camel->cancels);
	INIT_LLIST_HEAD(&camel->emergency_numbers);
	osmo_timer_setup(&camel->timer, try_cancels, camel);
	msc_camel_alloc_counters(camel);
	talloc_set_destructor(camel, free_camel);
	return camel;
}

camel_status msc_camel_enable(struct msc_camel *camel)
{
	camel_status status;
	uint64_t seed;

	if (camel->is_enabled)
		return CAMEL_OK;
	OSMO_ASSERT(camel_random_seed(&seed));
	status = camel_open(&camel->store, &camel->session, 1, CAMEL_MAX_UPDATES, CAMEL_PROFILE_1, seed);
	camel->is_enabled = status == CAMEL_OK;
	return status;
}

void msc_camel_disable(struct msc_camel *camel)
{
	struct refused_cancel *refused, *next;
	struct vlr_subscr *vsub;

	llist_for_each_entry(vsub, &camel->vlr->subscribers, list) {
		end_location(vsub);
		vsub->msc_camel_imsi = 0;
	}
	llist_for_each_entry_safe(refused, next, &camel->cancels, list) {
		llist_del(&refused->list);
		talloc_free(refused);
	}
	free_camel(camel);
	camel->is_enabled = false;
	msc_camel_count(camel);
}
