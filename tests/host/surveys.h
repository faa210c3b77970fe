/* The functions of a survey: settings whole and spoiled, up to eighteen recordings, and every line. */
#ifndef HOST_SURVEYS_H
#define HOST_SURVEYS_H

void surveys_try(void);

#endif
