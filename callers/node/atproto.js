// Repositories and events of the AT Protocol: atproto.d.ts says what each call does.
'use strict';
const { EventError } = require('./atproto_errors.js');

// Written so that `import` finds each name.
module.exports = { ...require('./atproto_events.js'), ...require('./atproto_repo.js'), EventError };
