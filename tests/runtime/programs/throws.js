'use strict';

throw new Error('thrown by the worker');
