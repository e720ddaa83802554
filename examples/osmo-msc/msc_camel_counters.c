/* SPDX-License-Identifier: MIT OR Apache-2.0 */
/* What the store and its session count, as counters of osmo-msc: `show rate-counters` and `show stats` have them. */
#include <osmocom/core/rate_ctr.h>
#include <osmocom/core/stat_item.h>
#include <osmocom/core/stats.h>
#include <osmocom/core/utils.h>
#include <osmocom/msc/msc_camel_core.h>
#include <osmocom/msc/vlr.h>

/* The first counters are those of the reasons. */
enum { PUBLISHED = CAMEL_REASONS, HELD };
enum { SUBSCRIBERS, PENDING };

static const struct rate_ctr_desc rate_descriptions[] = {
	[CAMEL_REASON_NONE] = { "decided:service", "Detection points at which a service is invoked" },
	[CAMEL_REASON_UNKNOWN] = { "decided:unknown", "Detection points of a subscriber without a record" },
	[CAMEL_REASON_NO_CSI] = { "decided:no_csi", "Detection points of a CSI that is not stored" },
	[CAMEL_REASON_NOT_ARMED] = { "decided:not_armed", "Detection points that are not in the CSI" },
	[CAMEL_REASON_EMERGENCY] = { "decided:emergency", "Detection points of emergency calls" },
	[CAMEL_REASON_CRITERIA] = { "decided:criteria", "Detection points whose criteria are not met" },
	[PUBLISHED] = { "updates:published", "Updates of subscriber data that are published" },
	[HELD] = { "publications:held", "Publications that a look has held up" },
};

static const struct rate_ctr_group_desc rate_group_description = {
	"camel",
	"trigger detection points and subscriber data of CAMEL",
	OSMO_STATS_CLASS_GLOBAL,
	ARRAY_SIZE(rate_descriptions),
	rate_descriptions,
};

static const struct osmo_stat_item_desc stat_descriptions[] = {
	[SUBSCRIBERS] = { "subscribers", "Subscribers with a record of CAMEL data" },
	[PENDING] = { "pending", "Updates of subscriber data that are not published yet" },
};

static const struct osmo_stat_item_group_desc stat_group_description = {
	"camel",
	"subscriber data of CAMEL",
	OSMO_STATS_CLASS_GLOBAL,
	ARRAY_SIZE(stat_descriptions),
	stat_descriptions,
};

void msc_camel_alloc_counters(struct msc_camel *camel)
{
	camel->rates = rate_ctr_group_alloc(camel, &rate_group_description, 0);
	camel->stats = osmo_stat_item_group_alloc(camel, &stat_group_description, 0);
	OSMO_ASSERT(camel->rates && camel->stats);
}

static void add(struct msc_camel *camel, unsigned at, uint64_t now, uint64_t before)
{
	rate_ctr_add(rate_ctr_group_get_ctr(camel->rates, at), now - before);
}

void msc_camel_count(struct msc_camel *camel)
{
	camel_decisions decisions = { .by = { { 0 } } };
	camel_counts counts = { 0 };

	/* A store that is opened later counts from 0 again. */
	if (camel->is_enabled) {
		if (camel_counts_of(&camel->store, &counts) != CAMEL_OK
		    || camel_decisions_of(&camel->session, &decisions) != CAMEL_OK)
			return;
		for (unsigned dp = 0; dp < ARRAY_SIZE(decisions.by); dp++) {
			for (unsigned at = 0; at < CAMEL_REASONS; at++)
				add(camel, at, decisions.by[dp][at], camel->decisions.by[dp][at]);
		}
		add(camel, PUBLISHED, counts.published, camel->counts.published);
		add(camel, HELD, counts.held, camel->counts.held);
	}
	camel->decisions = decisions;
	camel->counts = counts;
	osmo_stat_item_set(osmo_stat_item_group_get_item(camel->stats, SUBSCRIBERS), counts.subscribers);
	osmo_stat_item_set(osmo_stat_item_group_get_item(camel->stats, PENDING), counts.pending);
}
