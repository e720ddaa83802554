/* SPDX-License-Identifier: MIT OR Apache-2.0 */
/* What the VLR and the call control of osmo-msc ask libwenqolo: when a call is handed to an intelligent network service
 * (3GPP TS 23.078). README.md has where each of these functions is called. Without --enable-camel there is none. */
#pragma once

#include "config.h"

#if BUILD_CAMEL
#include <stdbool.h>
#include <stddef.h>
#include <stdint.h>

#include <osmocom/gsm/protocol/gsm_04_08.h>
#include <osmocom/gsm/protocol/gsm_04_08_gprs.h>

struct gsm_mncc;
struct gsm_network;
struct gsm_trans;
struct msc_camel;
struct msc_camel_call;
struct msc_camel_location;
struct osmo_fsm_inst;
struct osmo_gsup_message;
struct vlr_instance;
struct vlr_subscr;
struct vty;

/* The cause of Q.850 of a subscriber who has no radio contact, and that with which a service releases a call (ours). */
enum { MSC_CAMEL_ABSENT = 20, MSC_CAMEL_RELEASED = GSM48_CC_CAUSE_TEMP_FAILURE };

/* The settings of a VLR, and its counters, as a talloc child of it. Until it is enabled there is no store, and all
 * other functions do nothing. */
struct msc_camel *msc_camel_alloc(struct vlr_instance *vlr);

/* A procedure of the VLR requests a location update of the subscriber. The HLR ends it well, for which a cause other
 * than 0 makes it fail, or refuses it with a cause. A procedure ends that may have requested one of the subscriber, who
 * may be NULL. */
void msc_camel_location_requested(struct vlr_subscr *vsub, const struct osmo_fsm_inst *procedure);
enum gsm48_gmm_cause msc_camel_location_updated(struct vlr_subscr *vsub);
void msc_camel_location_refused(struct vlr_subscr *vsub, enum gsm48_gmm_cause cause);
void msc_camel_procedure_ended(struct vlr_subscr *vsub, const struct osmo_fsm_inst *procedure);

/* What the HLR sends of an IMSI, which may be that of several entries. 0: it is published, and is answered as done.
 * Else it has changed nothing, and is answered with this cause. msc_camel_delete returns whether it has CAMEL data. */
enum gsm48_gmm_cause msc_camel_insert(struct vlr_subscr *vsub, const struct osmo_gsup_message *gsup);
bool msc_camel_delete(struct vlr_subscr *vsub, const struct osmo_gsup_message *gsup, enum gsm48_gmm_cause *cause);
enum gsm48_gmm_cause msc_camel_cancel(struct vlr_subscr *vsub);

/* The VLR frees this entry. */
void msc_camel_purge(struct vlr_subscr *vsub);

/* DP 2 of the SETUP of a mobile, whose called party number has these octets of TS 24.008, and DP 12 of a call to a
 * subscriber. They return whether the call is to be released. If there is a record for the later detection points, the
 * transaction has it, or *call. */
bool msc_camel_outgoing(struct gsm_trans *trans, const struct gsm_mncc *setup, const uint8_t *called, size_t count);
bool msc_camel_incoming(struct vlr_subscr *vsub, const struct gsm_mncc *setup, struct msc_camel_call **call);

/* DP 13: the call to a subscriber has failed with this cause. It frees *call, which may be NULL. */
void msc_camel_failed(struct msc_camel_call **call, uint8_t cause);

/* The call to a subscriber has this transaction from here on; without memory for one it is NULL, and the call fails. */
void msc_camel_hand_over(struct msc_camel_call **call, struct gsm_trans *trans);

/* What call control sends to MNCC, and what MNCC sends to it: the end of a call before its answer, and the answer. */
void msc_camel_to_mncc(struct gsm_trans *trans, int message, const struct gsm_mncc *mncc);
void msc_camel_from_mncc(struct gsm_trans *trans, const struct gsm_mncc *mncc);

/* The node `camel` of the VTY, and the lines of `show subscriber`, each behind so many blanks. */
void msc_camel_vty_init(struct gsm_network *net);
void msc_camel_vty_show(struct vty *vty, int offset, const struct vlr_subscr *vsub);
#endif
