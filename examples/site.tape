# Six pages of three hosts, as they were recorded. Nothing here is fetched from the network.
suffix test
seed http://www.a.test/

page 200 other http://www.a.test/robots.txt
|User-agent: *
|Disallow: /private
end

page 200 html http://www.a.test/
|<a href="/one">one</a> <a href="/private/x">not for robots</a>
|<a href="http://b.test/">another host</a> <a href="/one#top">the same page</a>
end

page 301 other http://www.a.test/one
to http://c.test/new
end

page 200 html http://b.test/
|<a href="http://www.a.test/">back</a> <a href="http://c.test/new">a third host</a>
|<a href="https://c.test/secure">not http</a> <a href="/gone">gone</a>
end

page 200 html http://c.test/new
|<a href="http://b.test/two">two</a>
end

page 200 html http://b.test/two
|<a href="http://c.test/new">back</a>
end

page 404 html http://b.test/gone
|<p>Nothing is here.</p>
end
