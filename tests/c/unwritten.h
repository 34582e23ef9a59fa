/* Calls that leave their buffers as they were. */
#ifndef UNWRITTEN_H
#define UNWRITTEN_H

/* Makes them on buffers that cannot be written, and counts; 0 where nothing failed. A write, also of the same byte, ends the driver with the call's name. */
int unwritten(void);

#endif
