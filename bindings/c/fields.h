/* Fields of rows that are well formed, and which of them rows have. */
#ifndef FIELDS_H
#define FIELDS_H

#include "check.h"

void any_ste(union fields *fields, bool last_level);
void any_cd(union fields *fields, bool last_level);
void any_stage1(union fields *fields, bool last_level);
void any_stage2(union fields *fields, bool last_level);
void any_region(union fields *fields, bool last_level);

/* Whether rows like these have a part for the field. */
bool ste_has(const union fields *fields, enum tahvenno_field field);
bool cd_has(const union fields *fields, enum tahvenno_field field);
bool stage1_has(const union fields *fields, enum tahvenno_field field);
bool stage2_has(const union fields *fields, enum tahvenno_field field);
bool region_has(const union fields *fields, enum tahvenno_field field);

#endif
