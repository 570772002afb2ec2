/* The glue between QEMU's SMMUv3 and the unit: a monitor as docs/BOX.md wants one. Off unless TAHVENNO_STATE names a file; QEMU is
 * then as it was. QEMU calls what stands here with its big lock held, so one call at a time is on the unit. */
#ifndef TAHVENNO_GLUE_H
#define TAHVENNO_GLUE_H

#include "qemu/osdep.h"
#include "hw/arm/smmuv3.h"
#include "hw/arm/smmu-common.h"

struct Evt;

typedef IOMMUTLBEntry glue_walk(IOMMUMemoryRegion *, hwaddr, IOMMUAccessFlags, int);

bool glue_on(void);

/* The registers were reset: what the unit has is offered, and the memory begins empty. */
void glue_reset(SMMUv3State *s);

/* CR0, GERRORN or CMDQ_PROD were written: whatever they ask that the kept memory does not say yet is done, and the queue is run. */
void glue_consume(SMMUv3State *s);

/* A fault, as the guest's event queue has it; and the guest has read some. */
bool glue_event(SMMUv3State *s, const struct Evt *evt);
void glue_event_room(SMMUv3State *s);

/* The function that answers a device's access: QEMU's own, or one that asks the unit and has QEMU's own walk the tables. */
glue_walk *glue_translate(glue_walk *walk);

/* What QEMU found on a walk. Of a page the glue becomes the owner, if it is on. */
void glue_walked_config(const SMMUTransCfg *cfg);
bool glue_walked_page(const SMMUTransCfg *cfg, SMMUTLBEntry *page);

#endif
