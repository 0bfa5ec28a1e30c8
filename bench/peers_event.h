/* The event of bench/peers.c for LTTng-UST: a number. It is included several times, as LTTng-UST wants it. */
#undef LTTNG_UST_TRACEPOINT_PROVIDER
#define LTTNG_UST_TRACEPOINT_PROVIDER peers
#undef LTTNG_UST_TRACEPOINT_INCLUDE
#define LTTNG_UST_TRACEPOINT_INCLUDE "./peers_event.h"

#if !defined(PEERS_EVENT_H) || defined(LTTNG_UST_TRACEPOINT_HEADER_MULTI_READ)
#define PEERS_EVENT_H
#include <lttng/tracepoint.h>

LTTNG_UST_TRACEPOINT_EVENT(peers, tick, LTTNG_UST_TP_ARGS(unsigned long, n),
			   LTTNG_UST_TP_FIELDS(lttng_ust_field_integer(unsigned long, n, n)))
#endif

#include <lttng/tracepoint-event.h>
