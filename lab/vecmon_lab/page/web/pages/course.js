// The course: the marks of lessons that were read.

import { markRead } from "./progress.js";

markRead();
