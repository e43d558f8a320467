/* Cases of memory that no call has made. */
#ifndef OTHER_H
#define OTHER_H

void known_cases_of_other_memory(void);
void noise_for_a_job(void);

#endif
