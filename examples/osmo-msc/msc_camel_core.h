/* SPDX-License-Identifier: MIT OR Apache-2.0 */
/* What the files of the glue share. */
#pragma once

#include <camel.h>

#include <osmocom/core/linuxlist.h>
#include <osmocom/core/timer.h>
#include <osmocom/msc/debug.h>
#include <osmocom/msc/msc_camel.h>

#define LOG_CAMEL(imsi, level, format, args...) LOGP(DCAMEL, level, "CAMEL %s " format "\n", imsi, ##args)

struct msc_camel {
	struct vlr_instance *vlr;
	bool is_enabled; /* else store and session are empty */
	camel_store store;
	camel_session session;

	/* The Cancels that the timer tries again. */
	struct llist_head cancels;
	struct osmo_timer_list timer;

	/* Settings of the VTY. */
	bool releases_unknown;
	struct llist_head emergency_numbers;

	/* The counters, and the counts of the store and the session that are in them. */
	struct rate_ctr_group *rates;
	struct osmo_stat_item_group *stats;
	camel_counts counts;
	camel_decisions decisions;
};

/* How many seconds later a Cancel is tried again. */
enum { MSC_CAMEL_CANCEL_INTERVAL = 10 };

/* A number that is an emergency call also in a SETUP of a normal call. */
struct msc_camel_number {
	struct llist_head list;
	char digits[33];
};

/* Opens the store, or ends it with all its records. */
camel_status msc_camel_enable(struct msc_camel *camel);
void msc_camel_disable(struct msc_camel *camel);

/* The IMSI by which the glue acts for an entry: that whose record it owns, or else its own. */
camel_status msc_camel_imsi_of(const struct vlr_subscr *vsub, camel_imsi *imsi);

/* Allocates the counters, and adds what the store and its session have counted since. */
void msc_camel_alloc_counters(struct msc_camel *camel);
void msc_camel_count(struct msc_camel *camel);
